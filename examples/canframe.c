/*
 * A packer of frames as on a CAN bus: identifier, length, data and a checksum of 15 bits, with a stuffed bit behind five
 * equal ones.
 *
 * Input:  up to 6 messages: two bytes of an identifier, of which 11 bits count, a length of 0..8, and eight bytes of data.
 * Output: the bits of each frame as '0' and '1', and a line end.
 * Value:  the number of stuffed bits.
 *
 * The bounds: the head of a frame has 1 + 11 + 3 + 4 = 19 bits, a byte 8, of which there are up to 8, and the checksum 15.
 * Each has a loop of its own: one loop for fields of 1 to 15 bits would have a bound of 15 for all of them. The first bit of
 * a frame begins a run, and each further stuffed bit begins another: so a stuffed bit comes behind four bits at least, and
 * the first one behind five.
 */

#pragma flowrestriction 4*stuff + 1*put_frame <= 1*put_bit

static unsigned char data[8];
static int crc, last, run, stuffed;

/* Puts a bit, and one of the other kind behind five equal ones. */
static void put_bit(int bit)
{
    putchar('0' + bit);
    run = bit == last ? run + 1 : 1;
    last = bit;
    if (run == 5) {
        #pragma marker stuff
        last = !bit;
        run = 1;
        stuffed++;
        putchar('0' + last);
    }
}

/* Puts a bit that the checksum is taken over. */
static void put_checked(int bit)
{
    put_bit(bit);
    crc = (crc << 1 & 0x7fff) ^ (bit ^ crc >> 14 ? 0x4599 : 0);
}

static void put_byte(int byte)
{
    int i;

    #pragma loopbound min 8 max 8
    for (i = 7; i >= 0; i--)
        put_checked(byte >> i & 1);
}

static void put_frame(int identifier, int length)
{
    int head = identifier << 7 & 0x3ff80 | length;      /* a start bit of 0, the identifier, three bits of 0, the length */
    int i;

    crc = 0;
    last = 1;
    run = 0;
    #pragma loopbound min 19 max 19
    for (i = 18; i >= 0; i--)
        put_checked(head >> i & 1);
    #pragma loopbound min 0 max 8
    for (i = 0; i < length; i++)
        put_byte(data[i]);
    #pragma loopbound min 15 max 15
    for (i = 14; i >= 0; i--)
        put_bit(crc >> i & 1);
    putchar('\n');
}

int main(void)
{
    int count;

    #pragma loopbound min 1 max 6
    for (count = 0; count < 6; count++) {
        int high = getchar();
        int low = getchar();
        int length = getchar();
        int i;

        if (length == -1)
            break;
        #pragma loopbound min 8 max 8
        for (i = 0; i < 8; i++)
            data[i] = getchar();
        put_frame(high << 8 | low, length > 8 ? 8 : length);
    }
    return stuffed;
}
