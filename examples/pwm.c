/*
 * A PWM schedule: four outputs, each on for as many of 32 ticks as its duty says, and never all switched on at once.
 *
 * Input:  up to 8 periods of four bytes, the duty of each output, 0..255.
 * Output: one byte per tick, the outputs that are on, as bits 0 to 3.
 * Value:  how many outputs were on, over all ticks.
 *
 * The bounds: a period has 32 ticks and four outputs, whatever the duties are. An output begins eight ticks behind the one
 * before it, which spreads the current, so its ticks are counted modulo 32.
 */

static int duty[4];

static int outputs_at(int tick)
{
    int bits = 0;
    int i;

    #pragma loopbound min 4 max 4
    for (i = 0; i < 4; i++)
        if ((tick - 8 * i & 31) < duty[i])
            bits |= 1 << i;
    return bits;
}

/* Reads the duties of a period, in ticks, and says whether they are all there. */
static int read_duties(void)
{
    int last = 0;
    int i;

    #pragma loopbound min 4 max 4
    for (i = 0; i < 4; i++) {
        last = getchar();
        duty[i] = (last * 32 + 128) / 255;
    }
    return last != -1;
}

int main(void)
{
    int total = 0;
    int period, tick;

    #pragma loopbound min 1 max 8
    for (period = 0; period < 8; period++) {
        if (!read_duties())
            break;
        #pragma loopbound min 32 max 32
        for (tick = 0; tick < 32; tick++) {
            int bits = outputs_at(tick);

            putchar(bits);
            total += (bits & 1) + (bits >> 1 & 1) + (bits >> 2 & 1) + (bits >> 3);
        }
    }
    return total;
}
