/*
 * CRC-16 (polynomial 0x1021, initial value 0xFFFF) over the input, bit by bit, as it protects a message on a field bus.
 *
 * Input:  a message of up to 256 bytes; what follows is left unread.
 * Output: the two bytes of the checksum, the higher one first.
 * Value:  the number of bytes that were read.
 *
 * The bounds: a byte has 8 bits. A message has at most 256 bytes, because the counter in the test says so; where the
 * input is empty, no body starts.
 */

static unsigned short crc16_step(unsigned short crc, unsigned char byte)
{
    int bit;

    crc ^= byte << 8;
    #pragma loopbound min 8 max 8
    for (bit = 0; bit < 8; bit++)
        crc = crc & 0x8000 ? crc << 1 ^ 0x1021 : crc << 1;
    return crc;
}

int main(void)
{
    unsigned short crc = 0xFFFF;
    int count = 0;
    int c;

    #pragma loopbound min 0 max 256
    while (count < 256 && (c = getchar()) != -1) {
        crc = crc16_step(crc, c);
        count++;
    }
    putchar(crc >> 8);
    putchar(crc);
    return count;
}
