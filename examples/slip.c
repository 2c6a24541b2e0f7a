/*
 * A receiver of SLIP packets (RFC 1055): packets end with the byte C0, and DB escapes what stands for it.
 *
 * Input:  up to 128 bytes from the line.
 * Output: the bytes of each whole packet without escapes, behind its length; a packet of more than 16 bytes is dropped.
 * Value:  the number of packets that were dropped, too long or with a wrong escape.
 *
 * The bounds: a byte is one step, and a packet that ends is put out at once, up to 16 bytes. A packet that is put out took at
 * least a step for each of its bytes, one for each escape and one for its end, so all packets together have at most 128 of
 * these. The bounds of loops don't say so, and let each of 128 bytes end a packet of 16; the first restriction does. And a
 * byte is read as escaped only right behind an escape.
 */

#pragma flowrestriction 1*put + 1*escape + 1*whole <= 128*main
#pragma flowrestriction 1*escaped <= 1*escape

static unsigned char packet[16];
static int length, is_escaped, is_bad;

/* Puts the packet, and says whether it was dropped. */
static int end_packet(void)
{
    int is_dropped = is_bad;
    int i;

    if (!is_bad && length > 0) {
        #pragma marker whole
        putchar(length);
        #pragma loopbound min 1 max 16
        for (i = 0; i < length; i++) {
            #pragma marker put
            putchar(packet[i]);
        }
    }
    length = 0;
    is_escaped = 0;
    is_bad = 0;
    return is_dropped;
}

static void add(int byte)
{
    if (length == 16)
        is_bad = 1;
    else
        packet[length++] = byte;
}

static int receive(int c)
{
    if (c == 0xc0)
        return end_packet();
    if (is_escaped) {
        #pragma marker escaped
        is_escaped = 0;
        if (c == 0xdc)
            add(0xc0);
        else if (c == 0xdd)
            add(0xdb);
        else
            is_bad = 1;
    } else if (c == 0xdb) {
        #pragma marker escape
        is_escaped = 1;
    } else {
        add(c);
    }
    return 0;
}

int main(void)
{
    int dropped = 0;
    int count, c;

    #pragma loopbound min 1 max 128
    for (count = 0; count < 128; count++) {
        c = getchar();
        if (c == -1)
            break;
        dropped += receive(c);
    }
    return dropped;
}
