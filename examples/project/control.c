#include "project.h"

static int integral;

static int limited(int x, int most)
{
    return x > most ? most : x < 0 ? 0 : x;
}

int control(int wanted, int measured)
{
    int error = wanted - measured;

    integral = limited(integral + error, 65535);
    return limited(128 + (error * 4 + integral / 16) / 64, 255);
}

int main(void)
{
    int wanted = getchar();
    int i, sample;

    LOOPBOUND(1, SAMPLES)
    for (i = 0; i < SAMPLES; i++) {
        sample = getchar();
        if (sample == -1)
            break;
        putchar(control(wanted * 16, filtered(sample)));
    }
    return i;
}
