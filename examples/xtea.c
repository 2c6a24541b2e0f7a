/*
 * XTEA, a block cipher of 64 bits with a key of 128, as small devices use it.
 *
 * Input:  16 bytes of a key, then up to 8 blocks of 8 bytes.
 * Output: each block encrypted; all words have their highest byte first.
 * Value:  the number of blocks.
 *
 * The bounds: a word has 4 bytes, a key 4 words, a block 2, and a block goes through 32 rounds, whatever its bits are: a
 * cipher whose time depends on its key would give that away. A block that is cut off ends the loop.
 */

static unsigned key[4];
static unsigned left, right;
static int is_over;

static unsigned read_word(void)
{
    unsigned word = 0;
    int i, c;

    #pragma loopbound min 4 max 4
    for (i = 0; i < 4; i++) {
        c = getchar();
        is_over = c == -1;
        word = word << 8 | c & 255;
    }
    return word;
}

static void put_word(unsigned word)
{
    putchar(word >> 24);
    putchar(word >> 16);
    putchar(word >> 8);
    putchar(word);
}

static void encrypt(void)
{
    unsigned sum = 0;
    int round;

    #pragma loopbound min 32 max 32
    for (round = 0; round < 32; round++) {
        left += (right << 4 ^ right >> 5) + right ^ sum + key[sum & 3];
        sum += 0x9e3779b9u;
        right += (left << 4 ^ left >> 5) + left ^ sum + key[sum >> 11 & 3];
    }
}

int main(void)
{
    int count, i;

    #pragma loopbound min 4 max 4
    for (i = 0; i < 4; i++)
        key[i] = read_word();
    #pragma loopbound min 1 max 8
    for (count = 0; count < 8; count++) {
        left = read_word();
        right = read_word();
        if (is_over)
            break;
        encrypt();
        put_word(left);
        put_word(right);
    }
    return count;
}
