/*
 * A Fourier transform of 16 samples in fixed point, and the power of each frequency.
 *
 * Input:  up to 4 frames of 16 samples, 0..255 around 128.
 * Output: eight bytes per frame, the magnitudes of the frequencies 0 to 7, as a sum of absolute values over 16.
 * Value:  the frequency with the greatest magnitude in the last frame, 0 where there was none.
 *
 * The bounds: a transform of 16 points has 4 stages of 8 butterflies, whatever the samples are: a butterfly is numbered from
 * 0 to 7, and its two places follow from its number and the stage. So all loops turn as often in each run, and the only
 * choice is the end of the input. There are 4 frames; that no fifth one is read, only to find that end, is a restriction.
 *
 * Ranges: samples are within 128, times 64 for the fraction; each of four stages at most doubles, to 2^17, and factors are at
 * most 256, so that products stay below 2^26.
 */

#pragma flowrestriction 1*sample <= 64*main

static int re[16], im[16];
static const int cosine[8] = {256, 237, 181, 98, 0, -98, -181, -237};
static const int sine[8] = {0, 98, 181, 237, 256, 237, 181, 98};
/* Where a sample goes: its number with the bits turned round. */
static const int turned[16] = {0, 8, 4, 12, 2, 10, 6, 14, 1, 9, 5, 13, 3, 11, 7, 15};

static void butterfly(int low, int high, int factor)
{
    int c = cosine[factor];
    int s = sine[factor];
    int x = (re[high] * c + im[high] * s) / 256;
    int y = (im[high] * c - re[high] * s) / 256;

    re[high] = re[low] - x;
    im[high] = im[low] - y;
    re[low] += x;
    im[low] += y;
}

static void transform(void)
{
    int stage, i;

    #pragma loopbound min 4 max 4
    for (stage = 0; stage < 4; stage++) {
        int half = 1 << stage;

        #pragma loopbound min 8 max 8
        for (i = 0; i < 8; i++) {
            int within = i & half - 1;
            int low = (i - within) * 2 + within;

            butterfly(low, low + half, within << 3 - stage);
        }
    }
}

static int magnitude(int x)
{
    return x < 0 ? -x : x;
}

/* Puts the magnitudes of a frame, and says which frequency but 0 has the greatest. */
static int put_magnitudes(void)
{
    int greatest = -1;
    int found = 0;
    int i;

    #pragma loopbound min 8 max 8
    for (i = 0; i < 8; i++) {
        int size = (magnitude(re[i]) + magnitude(im[i])) / 16 / 64;

        putchar(size > 255 ? 255 : size);
        if (i > 0 && size > greatest) {
            greatest = size;
            found = i;
        }
    }
    return found;
}

int main(void)
{
    int found = 0;
    int frame, i, c;

    #pragma loopbound min 1 max 4
    for (frame = 0; frame < 4; frame++) {
        c = -1;
        #pragma loopbound min 16 max 16
        for (i = 0; i < 16; i++) {
            #pragma marker sample
            c = getchar();
            re[turned[i]] = (c - 128) * 64;
            im[turned[i]] = 0;
        }
        if (c == -1)
            break;
        transform();
        found = put_magnitudes();
    }
    return found;
}
