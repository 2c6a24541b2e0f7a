/* Takes samples, and calibrates behind each 32 of them; what is outside a window is an event, and behind 5 events there is a pause. */
#pragma flowrestriction 32*calibrate <= 1*sample
#pragma flowrestriction 5*pause <= 1*event
#pragma flowrestriction 1*event <= 1*sample

static int history[32], at, events, offset;

static void calibrate(void)
{
    int i, sum = 0;

    #pragma loopbound min 32 max 32
    for (i = 0; i < 32; i++)
        sum += history[i];
    offset = sum / 32;
}

static void pause(void)
{
    int i;

    #pragma loopbound min 20 max 20
    for (i = 0; i < 20; i++)
        putchar('.');
}

int main(void)
{
    int count;

    #pragma loopbound min 1 max 400
    for (count = 0; count < 400; count++) {
        int c = getchar();

        if (c == -1)
            break;
        {
            #pragma marker sample
            history[at++] = c;
        }
        if (at == 32) {
            calibrate();
            at = 0;
        }
        if (c > offset + 60 || c < offset - 60) {
            #pragma marker event
            if (++events == 5) {
                pause();
                events = 0;
            }
        }
    }
    return offset;
}
