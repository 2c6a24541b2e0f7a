/*
 * Fletcher's checksum of a block, as a boot loader takes it over its parameters.
 *
 * Input:  the two bytes of the checksum, then up to 240 bytes.
 * Output: the two bytes of the checksum that the block has.
 * Value:  1 where both agree, else 0.
 *
 * The bounds: bytes are summed in runs of 20, so that the remainders are taken seldom: at 20 bytes of 255 the second sum
 * grows by at most 20 * 255 + 255 * 210, which is far within an int. A block has at most 12 runs; a run has from none to 20
 * bytes, and its body starts once more where the input ends within it.
 */

static int first, second, is_over;

/* Sums up to 20 bytes. */
static void sum_run(void)
{
    int i, c;

    #pragma loopbound min 1 max 20
    for (i = 0; i < 20; i++) {
        c = getchar();
        if (c == -1) {
            is_over = 1;
            break;
        }
        first += c;
        second += first;
    }
    first %= 255;
    second %= 255;
}

int main(void)
{
    int wanted_first = getchar();
    int wanted_second = getchar();
    int runs;

    #pragma loopbound min 1 max 12
    for (runs = 0; runs < 12 && !is_over; runs++)
        sum_run();
    putchar(first);
    putchar(second);
    return first == wanted_first && second == wanted_second;
}
