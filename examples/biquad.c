/*
 * A low pass of second order in direct form, with coefficients of 14 fractional bits: it smooths a pressure signal.
 *
 * Input:  up to 100 samples, 0..255.
 * Output: one byte per sample, the smoothed signal, limited to 0..255.
 * Value:  the sum of the outputs.
 *
 * Ranges: the coefficients are those of a Butterworth filter at a tenth of the sampling rate, whose step response passes
 * its end by less than a tenth, and whose impulse response sums to less than 2 in absolute value. The state keeps 4
 * fractional bits, so each of its numbers is below 2 * 255 * 16 = 8,160, and the sum of five products below
 * 8,160 * (1,106 * 2 + 2,211 + 18,727 + 6,764) = 244,098,240.
 *
 * The loop ends at the latest after 100 samples, and its body starts at least once, since it is there that the end of the
 * input is seen.
 */

static const int b[3] = {1106, 2211, 1106};
static const int a[2] = {-18727, 6764};

static int x1, x2, y1, y2;              /* the last two samples and results, 4 fractional bits */

static int biquad(int sample)
{
    int x = sample << 4;
    int y = (b[0] * x + b[1] * x1 + b[2] * x2 - a[0] * y1 - a[1] * y2 + 8192) >> 14;

    x2 = x1;
    x1 = x;
    y2 = y1;
    y1 = y;
    return y >> 4;
}

int main(void)
{
    int sum = 0;
    int step;

    #pragma loopbound min 1 max 100
    for (step = 0; step < 100; step++) {
        int sample = getchar();
        int y;

        if (sample == -1)
            break;
        y = biquad(sample);
        y = y < 0 ? 0 : y > 255 ? 255 : y;
        putchar(y);
        sum += y;
    }
    return sum;
}
