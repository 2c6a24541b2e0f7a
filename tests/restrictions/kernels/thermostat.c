/* A thermostat with two thresholds: it goes on and off by turns, and each change is noted with its time in decimal digits. */
#pragma flowrestriction 1*on <= 1*off + 1*main
#pragma flowrestriction 1*off <= 1*on

static int is_on;

static void note(int time)
{
    int digits[3], count = 0;

    #pragma loopbound min 1 max 3
    do {
        digits[count++] = time % 10;
        time /= 10;
    } while (time > 0);
    #pragma loopbound min 1 max 3
    while (count > 0)
        putchar('0' + digits[--count]);
    putchar(is_on ? '+' : '-');
}

int main(void)
{
    int time, changes = 0;

    #pragma loopbound min 1 max 300
    for (time = 0; time < 300; time++) {
        int level = getchar();

        if (level == -1)
            break;
        if (!is_on && level < 100) {
            #pragma marker on
            is_on = 1;
            changes++;
            note(time);
        } else if (is_on && level > 120) {
            #pragma marker off
            is_on = 0;
            changes++;
            note(time);
        }
    }
    return changes;
}
