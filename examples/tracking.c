/*
 * A Kalman filter of one state in fixed point: a level that drifts, seen through noise.
 *
 * Input:  up to 64 measurements, 0..255.
 * Output: one byte per measurement, the estimate of the level.
 * Value:  the last gain, in parts of 256.
 *
 * Ranges: with 8 fractional bits the estimate stays within 0..65,280, as it lies between itself and a measurement. The
 * variance begins at 4096, grows by 16 a step and is multiplied by at most 1 less the gain, so it stays below 8192; and
 * with it the product with 256 stays below 2^21.
 */

static int level = 128 * 256;
static int variance = 4096;
static const int drift = 16;            /* how much the variance grows a step */
static const int noise = 1024;          /* the variance of a measurement */

/* One step: predict, then correct by the measurement. Answers the gain. */
static int update(int measured)
{
    int gain;

    variance += drift;
    gain = variance * 256 / (variance + noise);
    level += gain * (measured * 256 - level) / 256;
    variance = (256 - gain) * variance / 256;
    return gain;
}

int main(void)
{
    int gain = 0;
    int step, c;

    #pragma loopbound min 1 max 64
    for (step = 0; step < 64; step++) {
        c = getchar();
        if (c == -1)
            break;
        gain = update(c);
        putchar((level + 128) / 256);
    }
    return gain;
}
