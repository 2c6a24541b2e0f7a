/*
 * A decoder of one LZ4 block, as a boot loader unpacks its program. A block has sequences: a token with two lengths of four bits,
 * literals, and how far back the bytes stand that are copied behind them. A length of 15 goes on in further bytes.
 *
 * Input:  a block of up to 8,192 bytes.
 * Output: the bytes that it stands for, up to 65,536.
 * Value:  how many these are; -1 where the block is damaged: it ends early, points back before its beginning, or stands for more.
 *
 * The bounds: a sequence takes three bytes at least, but for the last one, which has no match. A length grows by 255 with each
 * byte that goes on, and is too large after 257 of them. By the bounds of its loops each of 2,731 sequences could put 65,536
 * bytes. The restrictions say what all of
 * them share: the bytes that are put, and those of the block, be they literals or lengths.
 */

#pragma flowrestriction 1*put <= 65536*main
#pragma flowrestriction 1*literal <= 8192*main
#pragma flowrestriction 1*more <= 8192*main

static unsigned char whole[65536];       /* what is put stays, to be copied */
static int length;                      /* of it so far */
static int taken;                       /* bytes of the block */
static int next;                        /* the byte that is taken next; -1 at the end */
static int is_bad;

static int take(void)
{
    int byte = next;

    next = ++taken < 8192 ? getchar() : -1;
    return byte;
}

static void put(int byte)
{
    whole[length++] = byte;
    putchar(byte);
}

/* A length of a token, with the bytes that it goes on in; more than 65,536 where it is too large. */
static int extended(int size)
{
    int more = 255;

    if (size < 15)
        return size;
    #pragma loopbound min 0 max 257
    while (more == 255 && size <= 65536 && next >= 0) {
        #pragma marker more
        more = take();
        size += more;
    }
    return more == 255 ? 2049 : size;
}

static void literals(int size)
{
    #pragma loopbound min 0 max 8191
    while (size > 0 && next >= 0) {
        #pragma marker literal
        put(take());
        size--;
    }
    if (size > 0)
        is_bad = 1;
}

static void copy(int back, int size)
{
    int i;

    #pragma loopbound min 4 max 65535
    for (i = 0; i < size; i++)
        put(whole[length - back]);
}

static void sequence(void)
{
    int token = take();
    int size = extended(token >> 4);
    int back;

    if (size > 65536 - length) {
        is_bad = 1;
        return;
    }
    literals(size);
    if (next < 0)
        return;
    back = take();
    if (next < 0) {
        is_bad = 1;
        return;
    }
    back += take() * 256;
    size = extended(token & 15) + 4;
    if (back == 0 || back > length || size > 65536 - length) {
        is_bad = 1;
        return;
    }
    copy(back, size);
}

int main(void)
{
    next = getchar();
    #pragma loopbound min 0 max 2731
    while (next >= 0 && !is_bad)
        sequence();
    return is_bad ? -1 : length;
}
