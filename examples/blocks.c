/*
 * Blocks of 16 samples, each reduced to its mean and its spread when it is full.
 *
 * Input:  up to 128 samples; a block that is cut off is left out.
 * Output: two bytes per block, the mean and the greatest distance from it.
 * Value:  the number of blocks.
 *
 * The bounds: there are at most 8 blocks, as 128 samples have no more. The loop over samples stands within the one over
 * blocks: one loop over samples with a test whether the block is full would allow 128 reductions, since the bound of that
 * loop doesn't say how often the test holds.
 *
 * What no bound of a loop says: a block is filled at most 8 times, since the loop over blocks ends there without another
 * look at the input; and of 16 samples at most 15 are above their mean, since not all numbers can be.
 */

#pragma flowrestriction 1*fill <= 8*main
#pragma flowrestriction 1*above <= 15*reduce

static unsigned char block[16];

/* Whether a whole block could be read. */
static int fill(void)
{
    int i, c = 0;

    #pragma loopbound min 16 max 16
    for (i = 0; i < 16; i++) {
        c = getchar();
        block[i] = c;
    }
    return c != -1;
}

static void reduce(void)
{
    int sum = 0;
    int spread = 0;
    int mean, i;

    #pragma loopbound min 16 max 16
    for (i = 0; i < 16; i++)
        sum += block[i];
    mean = sum / 16;
    #pragma loopbound min 16 max 16
    for (i = 0; i < 16; i++) {
        int distance = mean - block[i];

        if (distance < 0) {
            #pragma marker above
            distance = -distance;
        }
        if (distance > spread)
            spread = distance;
    }
    putchar(mean);
    putchar(spread);
}

int main(void)
{
    int count;

    #pragma loopbound min 1 max 8
    for (count = 0; count < 8; count++) {
        if (!fill())
            break;
        reduce();
    }
    return count;
}
