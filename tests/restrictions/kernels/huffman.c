/* Decodes letters from bits by a tree: at most 64 bytes, so 512 bits, and each letter takes one to seven of them. */
#pragma flowrestriction 1*bit <= 512*main
#pragma flowrestriction 1*fetched <= 65*main
#pragma flowrestriction 1*letter <= 1*bit

static const signed char tree[14] = {1, -1, 2, -2, 3, -3, 4, -4, 5, -5, 6, -6, -7, -8};
static int byte, left, taken;

static int next_bit(void)
{
    if (left == 0) {
        #pragma marker fetched
        byte = taken++ < 64 ? getchar() : -1;
        if (byte == -1)
            return -1;
        left = 8;
    }
    #pragma marker bit
    return byte >> --left & 1;
}

int main(void)
{
    int letters;

    #pragma loopbound min 1 max 513
    for (letters = 0; letters < 513; letters++) {
        int at = 0, bit = 0;

        #pragma loopbound min 1 max 7
        do {
            bit = next_bit();
            if (bit >= 0)
                at = tree[2 * at + bit];
        } while (bit >= 0 && at > 0);
        if (bit < 0)
            break;
        #pragma marker letter
        putchar('a' - at);
    }
    return letters & 255;
}
