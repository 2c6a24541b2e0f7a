/* Answers requests of a Modbus slave: up to 256 bytes, in frames of 8, each with a checksum of 16 bits; the function code says
 * which of three things is done. */
#pragma flowrestriction 8*check <= 1*byte
#pragma flowrestriction 1*read + 1*write + 1*fault <= 1*check
#pragma flowrestriction 1*byte <= 256*main

static unsigned char frame[8];
static unsigned short registers[16];

static unsigned check(void)
{
    unsigned crc = 0xffff;
    int i, bit;

    #pragma loopbound min 6 max 6
    for (i = 0; i < 6; i++) {
        crc ^= frame[i];
        #pragma loopbound min 8 max 8
        for (bit = 0; bit < 8; bit++)
            crc = crc & 1 ? crc >> 1 ^ 0xa001 : crc >> 1;
    }
    return crc;
}

static void answer(void)
{
    int i, first = frame[3] & 15;

    switch (frame[1]) {
    case 3:
        {
            #pragma marker read
            #pragma loopbound min 1 max 16
            for (i = first; i < 16; i++)
                putchar(registers[i] >> 8);
        }
        break;
    case 6:
        {
            #pragma marker write
            registers[first] = frame[4] << 8 | frame[5];
            putchar(frame[3]);
        }
        break;
    default:
        {
            #pragma marker fault
            putchar(frame[1] | 128);
        }
    }
}

int main(void)
{
    int count, filled = 0, good = 0;

    #pragma loopbound min 1 max 257
    for (count = 0; count < 257; count++) {
        int c = count < 256 ? getchar() : -1;

        if (c == -1)
            break;
        {
            #pragma marker byte
            frame[filled++] = c;
        }
        if (filled == 8) {
            filled = 0;
            if (check() == (unsigned)(frame[7] << 8 | frame[6])) {
                good++;
                answer();
            } else if (frame[0] == 0) {
                answer();
            }
        }
    }
    return good;
}
