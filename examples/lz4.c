/*
 * A decoder of one LZ4 block, as a boot loader unpacks its program. A block has sequences: a token with two lengths of four bits,
 * literals, and how far back the bytes stand that are copied behind them. A length of 15 goes on in further bytes.
 *
 * Input:  a block of up to 512 bytes.
 * Output: the bytes that it stands for, up to 2,048.
 * Value:  how many these are; -1 where the block is damaged: it ends early, points back before its beginning, or stands for more.
 *
 * The bounds: a sequence takes three bytes at least, but for the last one, which has no match. A length grows by 255 with each
 * byte that goes on, and is too large after eight of them. By the bounds of its loops each of 171 sequences could put 2,048
 * bytes. The restrictions say what all of them share: the bytes that are put, those that are taken, and two of these for each
 * match.
 */

#pragma flowrestriction 1*put <= 2048*main
#pragma flowrestriction 1*take <= 512*main
#pragma flowrestriction 3*match <= 1*take

static unsigned char whole[2048];       /* what is put stays, to be copied */
static int length;                      /* of it so far */
static int taken;                       /* bytes of the block */
static int next;                        /* the byte that is taken next; -1 at the end */
static int is_bad;

static int take(void)
{
    int byte = next;

    next = ++taken < 512 ? getchar() : -1;
    return byte;
}

static void put(int byte)
{
    whole[length++] = byte;
    putchar(byte);
}

/* A length of a token, with the bytes that it goes on in; more than 2,048 where it is too large. */
static int extended(int size)
{
    int more = 255;

    if (size < 15)
        return size;
    #pragma loopbound min 0 max 8
    while (more == 255 && size <= 2048 && next >= 0) {
        more = take();
        size += more;
    }
    return more == 255 ? 2049 : size;
}

static void literals(int size)
{
    #pragma loopbound min 0 max 511
    while (size > 0 && next >= 0) {
        put(take());
        size--;
    }
    if (size > 0)
        is_bad = 1;
}

static void copy(int back, int size)
{
    int i;

    #pragma marker match
    #pragma loopbound min 4 max 2047
    for (i = 0; i < size; i++)
        put(whole[length - back]);
}

static void sequence(void)
{
    int token = take();
    int size = extended(token >> 4);
    int back;

    if (size > 2048 - length) {
        is_bad = 1;
        return;
    }
    literals(size);
    if (next < 0)
        return;
    back = take();
    if (next < 0) {
        is_bad = 1;
        return;
    }
    back += take() * 256;
    size = extended(token & 15) + 4;
    if (back == 0 || back > length || size > 2048 - length) {
        is_bad = 1;
        return;
    }
    copy(back, size);
}

int main(void)
{
    next = getchar();
    #pragma loopbound min 0 max 171
    while (next >= 0 && !is_bad)
        sequence();
    return is_bad ? -1 : length;
}
