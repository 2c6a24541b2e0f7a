/*
 * A debouncer of eight contacts at once, with vertical counters: a contact changes when four samples in a row say so.
 *
 * Input:  up to 200 samples of the port, one bit per contact.
 * Output: one byte per sample, the debounced contacts.
 * Value:  the number of changes, over all contacts.
 *
 * The bounds: the loop over the samples ends at the latest after 200, and its body starts at least once, since it is
 * there that the end of the input is seen. Counting the bits of a byte clears one in each turn, so it takes at most 8;
 * and as a contact needs four samples to change, all eight together change at most 8 * 50 = 400 times.
 */

#pragma flowrestriction 1*change <= 400*main

static unsigned char stable;
static unsigned char low_bits = 0xFF, high_bits = 0xFF;

/* The contacts that change with this sample. */
static unsigned char debounce(unsigned char sample)
{
    unsigned char differs = sample ^ stable;
    unsigned char changed;

    /* A two-bit counter per contact runs down while its sample differs, and is full again as soon as it doesn't. */
    low_bits = ~(low_bits & differs);
    high_bits = low_bits ^ (high_bits & differs);
    changed = differs & low_bits & high_bits;
    stable ^= changed;
    return changed;
}

static int count_bits(unsigned char bits)
{
    int count = 0;

    #pragma loopbound min 0 max 8
    while (bits) {
        #pragma marker change
        bits &= bits - 1;
        count++;
    }
    return count;
}

int main(void)
{
    int changes = 0;
    int step;

    #pragma loopbound min 1 max 200
    for (step = 0; step < 200; step++) {
        int sample = getchar();

        if (sample == -1)
            break;
        changes += count_bits(debounce(sample));
        putchar(stable);
    }
    return changes;
}
