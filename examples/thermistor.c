/*
 * The temperature of a thermistor: a table over the converter's value, with straight lines between its points.
 *
 * Input:  up to 64 readings of 10 bits, two bytes each, the higher one first.
 * Output: the temperature of each in degrees as a signed byte; 127 for a reading out of range.
 * Value:  the greatest temperature in tenths of a degree, or -1000 where there was none.
 *
 * The bounds: readings below 64 or from 960 up are refused before the search. What passes lies below some point behind
 * the first one, so the search takes 1 to 7 turns: its test never fails, and it is the `break` that ends it. A span
 * between two points is a positive number. The outer loop ends at the latest after 64 readings, and its body starts at
 * least once, since it is there that the end of the input is seen.
 *
 * The bound of the search leaves open that its `break` comes when the test holds for an eighth time; the restriction says
 * that no reading is compared with more than 7 points.
 */

#pragma flowrestriction 1*compared <= 7*temperature

static const short readings[8] = {64, 128, 256, 384, 512, 640, 800, 960};
static const short tenths[8] = {1250, 950, 640, 430, 250, 80, -150, -400};

static int temperature(int reading)
{
    int i, span, rise;

    if (reading < readings[0] || reading >= readings[7])
        return -1000;
    #pragma loopbound min 1 max 7
    for (i = 1; i < 8; i++) {
        #pragma marker compared
        if (reading < readings[i])
            break;
    }
    span = readings[i] - readings[i - 1];
    rise = tenths[i] - tenths[i - 1];
    return tenths[i - 1] + rise * (reading - readings[i - 1]) / span;
}

int main(void)
{
    int greatest = -1000;
    int count;

    #pragma loopbound min 1 max 64
    for (count = 0; count < 64; count++) {
        int high = getchar();
        int low = getchar();
        int now;

        if (low == -1)
            break;
        now = temperature(high << 8 | low);
        putchar(now == -1000 ? 127 : now / 10);
        if (now > greatest)
            greatest = now;
    }
    return greatest;
}
