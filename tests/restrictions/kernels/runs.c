/* Decodes runs: a count and a byte each; 64 runs at most, of at most 256 bytes together. */
#pragma flowrestriction 1*put_out <= 256*main

int main(void)
{
    int room = 256, run, i;

    #pragma loopbound min 1 max 64
    for (run = 0; run < 64; run++) {
        int count = getchar(), byte = getchar();

        if (byte == -1 || count > room)
            break;
        room -= count;
        #pragma loopbound min 0 max 255
        for (i = 0; i < count; i++) {
            #pragma marker put_out
            putchar(byte);
        }
    }
    return room;
}
