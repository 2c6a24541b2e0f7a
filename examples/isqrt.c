/*
 * The integer square root, digit by digit, as it gives the length of a vector: no division, and always 16 turns.
 *
 * Input:  up to 16 numbers of four bytes each, the highest byte first.
 * Output: the root of each, two bytes, the higher one first.
 * Value:  the sum of the roots.
 *
 * The bounds: `bit` begins at 2^30 and is divided by 4 until it is 0, which takes 16 turns. A number has four bytes. The
 * outer loop ends at the latest after 16 numbers, and its body starts at least once, since it is there that the end of
 * the input is seen.
 */

static unsigned isqrt(unsigned x)
{
    unsigned root = 0;
    unsigned bit = 1u << 30;

    #pragma loopbound min 16 max 16
    while (bit != 0) {
        if (x >= root + bit) {
            x -= root + bit;
            root = (root >> 1) + bit;
        } else {
            root >>= 1;
        }
        bit >>= 2;
    }
    return root;
}

int main(void)
{
    unsigned sum = 0;
    int count, i;

    #pragma loopbound min 1 max 16
    for (count = 0; count < 16; count++) {
        unsigned x = 0;
        unsigned root;
        int byte = 0;

        #pragma loopbound min 4 max 4
        for (i = 0; i < 4; i++) {
            byte = getchar();
            x = x << 8 | (byte & 0xFF);
        }
        if (byte == -1)
            break;
        root = isqrt(x);
        sum += root;
        putchar(root >> 8);
        putchar(root);
    }
    return sum;
}
