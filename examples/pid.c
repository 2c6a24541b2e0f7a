/*
 * A PID controller for a heater, in fixed point with 8 fractional bits.
 *
 * Input:  up to 64 pairs of bytes, the wanted and the measured temperature, each 0..255.
 * Output: one byte per pair, the duty cycle of the heater, 0..255.
 * Value:  the sum of the absolute errors, so that two tunings can be compared.
 *
 * Ranges: an error is within -255..255, so the proportional term is within 255 * 640 = 163,200, the differential one
 * within 510 * 96 = 48,960, and the integral is clamped to 65,280. No sum leaves the 32 bits of an int.
 */

static const int kp = 640;              /* 2.5 */
static const int ki = 26;               /* about 0.1 */
static const int kd = 96;               /* 0.375 */

static int integral;
static int last_error;

static int clamp(int x, int low, int high)
{
    if (x < low)
        return low;
    if (x > high)
        return high;
    return x;
}

/* One step of the controller, called at a fixed rate. */
static int pid(int wanted, int measured)
{
    int error = wanted - measured;
    int slope = error - last_error;

    last_error = error;
    integral = clamp(integral + ki * error, -65280, 65280);     /* no wind-up beyond full power */
    return clamp((kp * error + integral + kd * slope) / 256, 0, 255);
}

int main(void)
{
    int total = 0;
    int step;

    /* The loop ends at the latest after 64 steps. Its body starts at least once: it is the body that finds the input
       at its end, and a start that leaves at once counts like any other. */
    #pragma loopbound min 1 max 64
    for (step = 0; step < 64; step++) {
        int wanted = getchar();
        int measured = getchar();

        if (measured == -1)
            break;
        putchar(pid(wanted, measured));
        total += wanted > measured ? wanted - measured : measured - wanted;
    }
    return total;
}
