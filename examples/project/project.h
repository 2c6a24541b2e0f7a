/* What both files of the project know. */
#ifndef PROJECT_H
#define PROJECT_H

#include <wcc.h>

/* A job of the task takes so many samples. */
#define SAMPLES 16

/* sensor.c: the median of the last three samples, in steps of a sixteenth. */
int filtered(int sample);

/* control.c: one step of the controller. */
int control(int wanted, int measured);

#endif
