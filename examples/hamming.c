/*
 * A decoder of Hamming's code of 7 bits, which corrects one wrong bit of each word.
 *
 * Input:  up to 64 words, one a byte: the bits 1 to 7 of the code are its bits 0 to 6.
 * Output: one byte for two words, the four bits of data of each, the first in the high half.
 * Value:  the number of corrected words.
 *
 * The bounds: each of three checks looks at four bits, in one expression; a pair of words is read in one turn, so that there
 * are at most 32, and a pair that is cut off ends the loop.
 */

static int corrected;

static int bit(int word, int number)
{
    return word >> number - 1 & 1;
}

static int decode(int word)
{
    int wrong = bit(word, 1) ^ bit(word, 3) ^ bit(word, 5) ^ bit(word, 7);

    wrong |= (bit(word, 2) ^ bit(word, 3) ^ bit(word, 6) ^ bit(word, 7)) << 1;
    wrong |= (bit(word, 4) ^ bit(word, 5) ^ bit(word, 6) ^ bit(word, 7)) << 2;
    if (wrong) {
        word ^= 1 << wrong - 1;
        corrected++;
    }
    return bit(word, 3) << 3 | bit(word, 5) << 2 | bit(word, 6) << 1 | bit(word, 7);
}

int main(void)
{
    int pair;

    #pragma loopbound min 1 max 32
    for (pair = 0; pair < 32; pair++) {
        int first = getchar();
        int second = getchar();

        if (second == -1)
            break;
        putchar(decode(first) << 4 | decode(second));
    }
    return corrected;
}
