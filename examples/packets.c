/*
 * A receiver of samples in packets, and their spectrum. A packet is the byte 0xA5, a count of 1 to 16, so many samples, and their
 * sum modulo 256; the samples of good packets make blocks of 32, which are transformed.
 *
 * Input:  up to 400 bytes from the line, with noise between the packets.
 * Output: 16 bytes per block, the magnitudes of the frequencies 0 to 15; for a bad packet the letter '?'.
 * Value:  the number of good packets.
 *
 * The bounds: each of 400 bytes may end a packet, each packet has up to 16 samples, each of these may end a block, and three
 * loops transform it: by the bounds of all these loops 8,192,000 butterflies. What comes behind what is in the restrictions:
 * a packet ends behind its count, and that behind its start; a packet's samples were bytes of the line, as were its three other
 * bytes; a block is 32 samples, and has 80 butterflies.
 *
 * Ranges: samples are within 128, times 32 for the fraction; a butterfly halves, so that no number gets longer; factors have 12
 * fractional bits.
 */

#pragma flowrestriction 1*ended <= 1*counted
#pragma flowrestriction 1*counted <= 1*started
#pragma flowrestriction 1*sample + 3*good <= 400*main
#pragma flowrestriction 32*transform <= 1*sample
#pragma flowrestriction 1*butterfly = 80*transform

static const int cosine[16] = {
    4096, 4017, 3784, 3406, 2896, 2276, 1567, 799, 0, -799, -1567, -2276,
    -2896, -3406, -3784, -4017
};
static int re[32], im[32];
static int filled;                      /* samples of the block */
static unsigned char packet[16];
static int state, count, taken;         /* 0 waits for 0xA5, 1 for the count, 2 for samples, 3 for the sum */
static unsigned char sum;

static void butterfly(int low, int high, int angle)
{
    int c = cosine[angle];
    int s = cosine[angle < 8 ? 8 - angle : angle - 8];
    int x = re[high] * c + im[high] * s >> 12;
    int y = im[high] * c - re[high] * s >> 12;

    re[high] = re[low] - x >> 1;
    im[high] = im[low] - y >> 1;
    re[low] = re[low] + x >> 1;
    im[low] = im[low] + y >> 1;
}

static void transform(void)
{
    int half, group, i;

    #pragma loopbound min 5 max 5
    for (half = 1; half < 32; half *= 2) {
        #pragma loopbound min 1 max 16
        for (group = 0; group < 32; group += 2 * half) {
            #pragma loopbound min 1 max 16
            for (i = 0; i < half; i++)
                butterfly(group + i, group + i + half, i * (16 / half));
        }
    }
}

static int magnitude(int x)
{
    return x < 0 ? -x : x;
}

static void put_magnitudes(void)
{
    int i;

    #pragma loopbound min 16 max 16
    for (i = 0; i < 16; i++)
        putchar(magnitude(re[i]) + magnitude(im[i]) >> 5);
}

/* Puts a sample where its number's five bits turned round say. */
static void add(int sample)
{
    int i = filled++;

    i = (i & 1) << 4 | (i & 2) << 2 | i & 4 | (i & 8) >> 2 | (i & 16) >> 4;
    re[i] = (sample - 128) * 32;
    im[i] = 0;
}

static void use_packet(void)
{
    int i;

    #pragma loopbound min 1 max 16
    for (i = 0; i < count; i++) {
        #pragma marker sample
        add(packet[i]);
        if (filled == 32) {
            transform();
            put_magnitudes();
            filled = 0;
        }
    }
}

/* Takes a byte of the line, and says whether it ends a good packet. */
static int take(int byte)
{
    int is_good = 0;

    switch (state) {
    case 0:
        if (byte == 0xA5) {
            #pragma marker started
            state = 1;
        }
        break;
    case 1:
        if (byte >= 1 && byte <= 16) {
            #pragma marker counted
            count = byte;
            taken = 0;
            sum = 0;
            state = 2;
        } else {
            state = 0;
        }
        break;
    case 2:
        packet[taken++] = byte;
        sum += byte;
        if (taken == count)
            state = 3;
        break;
    case 3:
        {
            #pragma marker ended
            state = 0;
        }
        if (byte == sum) {
            #pragma marker good
            is_good = 1;
            use_packet();
        } else {
            putchar('?');
        }
    }
    return is_good;
}

int main(void)
{
    int packets = 0;
    int i;

    #pragma loopbound min 1 max 400
    for (i = 0; i < 400; i++) {
        int c = getchar();

        if (c == -1)
            break;
        packets += take(c);
    }
    return packets;
}
