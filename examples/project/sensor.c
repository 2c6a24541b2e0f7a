#include "project.h"

static unsigned char window[3];
static int newest;

static int middle(int a, int b, int c)
{
    if (a > b)
        return b > c ? b : a > c ? c : a;
    return a > c ? a : b > c ? c : b;
}

int filtered(int sample)
{
    newest = newest == 2 ? 0 : newest + 1;
    window[newest] = sample;
    return middle(window[0], window[1], window[2]) * 16;
}
