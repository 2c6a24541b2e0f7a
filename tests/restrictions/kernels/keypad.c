/* Scans a keypad of four rows with four keys each; of more than three keys none counts. */
#pragma flowrestriction 1*found <= 3*scan
#pragma flowrestriction 1*sent <= 1*found

static int keys[3], down;

static int scan(void)
{
    int row, column, count = 0;

    #pragma loopbound min 4 max 4
    for (row = 0; row < 4; row++) {
        int lines = getchar();

        #pragma loopbound min 4 max 4
        for (column = 0; column < 4; column++) {
            if (lines >> column & 1 && count < 3) {
                #pragma marker found
                keys[count++] = row * 4 + column;
            }
        }
    }
    return count;
}

int main(void)
{
    int tick, i;

    #pragma loopbound min 40 max 40
    for (tick = 0; tick < 40; tick++) {
        int count = scan(), bits = 0;

        #pragma loopbound min 0 max 3
        for (i = 0; i < count; i++) {
            bits |= 1 << keys[i];
            if (!(down >> keys[i] & 1)) {
                #pragma marker sent
                putchar('A' + keys[i]);
            }
        }
        down = bits;
    }
    return down & 255;
}
