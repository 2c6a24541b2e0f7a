/*
 * One step of a cruise control, from any state: what the bound says of the step holds in every state that it may ever be
 * in, and no history has to be thought of.
 *
 * Input:  the state in ten bytes: mode, wanted speed, throttle, integral (2, the higher one first, 4000 stands for 0), the
 *         last four speeds, gear; then what the step is given: buttons, speed, brake. A byte that is missing is 255.
 * Output: the throttle, and then the state in the same ten bytes.
 * Value:  the mode.
 *
 * `main` brings each part of the state into its range, and the step keeps these ranges: mode 0 to 2, wanted speed and
 * speeds 0 to 250, throttle 0 to 200, integral -4000 to 4000, gear 0 to 5. So every state in which the step is called is
 * one that some input fills in, and every run is defined: an error is within -250..250, so no sum leaves 32 bits.
 *
 * The bounds: there are four speeds. The gears are six, and a search for the right one starts anywhere among them, so it
 * goes at most five up or five down, and not both: above the speed from which a gear is too low, the next one isn't too
 * high. Together that is a restriction. `main` has one path and calls none of the step's functions, so a step takes at most
 * the shares of `step`, `drive`, `mode_of`, `gear_of`, `smoothed` and `clamp` together, whatever was before it.
 */

#pragma flowrestriction 1*up + 1*down <= 5*gear_of

static const unsigned char up_from[6] = {20, 40, 65, 95, 140, 255};     /* above this speed a gear is too low */
static const unsigned char down_from[6] = {0, 12, 28, 50, 78, 110};     /* below this speed a gear is too high */

static int mode;                        /* 0 is off, 1 holds the wanted speed, 2 comes back to it */
static int wanted, throttle, integral;
static unsigned char speeds[4];
static int gear;

static int clamp(int x, int low, int high)
{
    if (x < low)
        return low;
    if (x > high)
        return high;
    return x;
}

/* The mean of the last four speeds, of which this is the newest. */
static int smoothed(int speed)
{
    int sum = speed;
    int i;

    #pragma loopbound min 3 max 3
    for (i = 3; i > 0; i--) {
        speeds[i] = speeds[i - 1];
        sum += speeds[i];
    }
    speeds[0] = speed;
    return sum / 4;
}

/* The buttons are 1 to set, 2 to come back, 4 to leave. */
static int mode_of(int buttons, int speed, int brake)
{
    if (brake || buttons & 4)
        return 0;
    switch (mode) {
    case 0:
        if (buttons & 1) {
            wanted = speed;
            return 1;
        }
        return buttons & 2 && wanted > 0 ? 2 : 0;
    case 1:
        if (buttons & 1)
            wanted = clamp(wanted + 2, 0, 250);
        return 1;
    default:
        return speed >= wanted - 2 ? 1 : 2;
    }
}

static int gear_of(int speed)
{
    #pragma loopbound min 0 max 5
    while (speed > up_from[gear]) {
        #pragma marker up
        gear++;
    }
    #pragma loopbound min 0 max 5
    while (speed < down_from[gear]) {
        #pragma marker down
        gear--;
    }
    return gear;
}

static int drive(int speed)
{
    int error = wanted - speed;
    int most = mode == 2 ? 6 : 12;      /* coming back is gentle */
    int asked;

    integral = clamp(integral + error, -4000, 4000);
    asked = clamp(error * 6 + integral / 16 + gear * 4, 0, 200);
    return clamp(asked, throttle - most, throttle + most);
}

static int step(int buttons, int speed, int brake)
{
    int mean = smoothed(speed);

    mode = mode_of(buttons, mean, brake);
    gear_of(mean);
    if (mode == 0) {
        integral = 0;
        throttle = 0;
    } else {
        throttle = drive(mean);
    }
    return throttle;
}

/* A byte of the input, in the range up to `most`. */
static int byte(int most)
{
    return (getchar() & 0xFF) % (most + 1);
}

int main(void)
{
    int buttons, speed, i;

    mode = byte(2);
    wanted = byte(250);
    throttle = byte(200);
    integral = byte(255) << 8;
    integral = (integral | byte(255)) % 8001 - 4000;
    #pragma loopbound min 4 max 4
    for (i = 0; i < 4; i++)
        speeds[i] = byte(250);
    gear = byte(5);
    buttons = byte(255);
    speed = byte(250);

    putchar(step(buttons, speed, byte(1)));
    putchar(mode);
    putchar(wanted);
    putchar(throttle);
    putchar((integral + 4000) >> 8);
    putchar(integral + 4000);
    #pragma loopbound min 4 max 4
    for (i = 0; i < 4; i++)
        putchar(speeds[i]);
    putchar(gear);
    return mode;
}
