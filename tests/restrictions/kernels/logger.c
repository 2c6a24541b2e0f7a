/* Logs events into a buffer of 16, which is written out when it is full and once at the end. */
#pragma flowrestriction 16*full <= 1*log
#pragma flowrestriction 1*flush <= 1*full + 1*main

static int buffer[16], used;

static void flush(void)
{
    int i;

    #pragma loopbound min 0 max 16
    for (i = 0; i < used; i++) {
        putchar(buffer[i] & 255);
        putchar(buffer[i] >> 8 & 255);
    }
    used = 0;
}

static void log(int event)
{
    buffer[used++] = event;
    if (used == 16) {
        #pragma marker full
        flush();
    }
}

int main(void)
{
    int time;

    #pragma loopbound min 1 max 500
    for (time = 0; time < 500; time++) {
        int c = getchar();

        if (c == -1)
            break;
        if (c > 127)
            log(time * 256 + c);
    }
    flush();
    return time & 255;
}
