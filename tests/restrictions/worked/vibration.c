/*
 * A monitor of the vibration of a bearing: each sample passes two filters, and each block of 256 is transformed and judged.
 *
 * Input:  up to 512 samples, 0..255 around 128.
 * Output: two bytes per block: its loudest frequency, 1 to 127, and how many of its frequencies are above the limit.
 * Value:  the number of blocks with more than eight such frequencies.
 *
 * The bounds: a transform of 256 points has 8 stages of 128 butterflies, in three loops. How often the inner ones turn hangs on
 * the stage, and by their bounds alone they could turn 8 * 128 * 128 times; the first restriction says how often they do. The
 * second says that a block has 256 samples, where by the bounds alone each of 512 samples could end one.
 *
 * Ranges: factors have 12 fractional bits and are below 2; what a filter gives is cut to 13 bits and a sign, so that its sums of
 * products stay below 2^29. No butterfly makes a number longer than the longer of its two, since it halves, and its products
 * stay below 2^26.
 */

#pragma flowrestriction 1*butterfly = 1024*transform
#pragma flowrestriction 256*transform <= 1*add

/* A high pass at a fiftieth of the sampling rate, and a low pass at two fifths of it. */
static const int b0[2] = {3748, 2617}, b1[2] = {-7495, 5234}, b2[2] = {3748, 2617};
static const int a1[2] = {-7466, 4682}, a2[2] = {3429, 1691};
static int z1[2], z2[2];

/* The cosines of a half turn in 128 parts. */
static const short cosine[128] = {
    4096, 4095, 4091, 4085, 4076, 4065, 4052, 4036, 4017, 3996, 3973, 3948,
    3920, 3889, 3857, 3822, 3784, 3745, 3703, 3659, 3612, 3564, 3513, 3461,
    3406, 3349, 3290, 3229, 3166, 3102, 3035, 2967, 2896, 2824, 2751, 2675,
    2598, 2520, 2440, 2359, 2276, 2191, 2106, 2019, 1931, 1842, 1751, 1660,
    1567, 1474, 1380, 1285, 1189, 1092, 995, 897, 799, 700, 601, 501,
    401, 301, 201, 101, 0, -101, -201, -301, -401, -501, -601, -700,
    -799, -897, -995, -1092, -1189, -1285, -1380, -1474, -1567, -1660, -1751, -1842,
    -1931, -2019, -2106, -2191, -2276, -2359, -2440, -2520, -2598, -2675, -2751, -2824,
    -2896, -2967, -3035, -3102, -3166, -3229, -3290, -3349, -3406, -3461, -3513, -3564,
    -3612, -3659, -3703, -3745, -3784, -3822, -3857, -3889, -3920, -3948, -3973, -3996,
    -4017, -4036, -4052, -4065, -4076, -4085, -4091, -4095
};
static int re[256], im[256];
static int taken;                       /* samples of the block */

static int filtered(int which, int x)
{
    int y = b0[which] * x + z1[which] >> 12;

    y = y < -8191 ? -8191 : y > 8191 ? 8191 : y;
    z1[which] = b1[which] * x - a1[which] * y + z2[which];
    z2[which] = b2[which] * x - a2[which] * y;
    return y;
}

/* The bits of a number from 0 to 255, turned round. */
static int turned(int i)
{
    i = (i & 0x0f) << 4 | i >> 4;
    i = (i & 0x33) << 2 | i >> 2 & 0x33;
    return (i & 0x55) << 1 | i >> 1 & 0x55;
}

static void add(int sample)
{
    int place = turned(taken++);

    re[place] = filtered(1, filtered(0, (sample - 128) * 16));
    im[place] = 0;
}

/* Turns a number at a place by an angle, and makes it and another one their half sum and half difference. */
static void butterfly(int low, int high, int angle)
{
    int c = cosine[angle];
    int s = cosine[angle < 64 ? 64 - angle : angle - 64];
    int x = re[high];
    int y = im[high];
    int z = x * c + y * s >> 12;

    y = y * c - x * s >> 12;
    x = re[low];
    re[high] = x - z >> 1;
    re[low] = x + z >> 1;
    x = im[low];
    im[high] = x - y >> 1;
    im[low] = x + y >> 1;
}

static void transform(void)
{
    int half, group, i;

    #pragma loopbound min 8 max 8
    for (half = 1; half < 256; half *= 2) {
        int step = 128 / half;

        #pragma loopbound min 1 max 128
        for (group = 0; group < 256; group += 2 * half) {
            int angle = 0;

            #pragma loopbound min 1 max 128
            for (i = 0; i < half; i++) {
                butterfly(group + i, group + i + half, angle);
                angle += step;
            }
        }
    }
}

/* Says whether the block is one for an alarm. */
static int judge(void)
{
    int loudest = 1, greatest = 0, above = 0;
    int i;

    #pragma loopbound min 127 max 127
    for (i = 1; i < 128; i++) {
        int size = (re[i] < 0 ? -re[i] : re[i]) + (im[i] < 0 ? -im[i] : im[i]);

        if (size > greatest) {
            greatest = size;
            loudest = i;
        }
        if (size > 40)
            above++;
    }
    putchar(loudest);
    putchar(above);
    return above > 8;
}

int main(void)
{
    int alarms = 0;
    int count;

    #pragma loopbound min 1 max 512
    for (count = 0; count < 512; count++) {
        int c = getchar();

        if (c == -1)
            break;
        add(c);
        if (taken == 256) {
            transform();
            alarms += judge();
            taken = 0;
        }
    }
    return alarms;
}
