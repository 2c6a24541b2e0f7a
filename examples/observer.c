/*
 * A controller in state space: an observer estimates position, speed and load of a drive, and the feedback goes by them.
 *
 * Input:  up to 40 pairs of bytes, the wanted and the measured position, 0..255.
 * Output: one byte per pair, the torque around 128.
 * Value:  the last estimate of the load.
 *
 * The bounds: a step is a product of a matrix of 3 by 3 with the state, and one with the feedback of 3: loops with fixed
 * bounds. The end of the input is the only choice, beside the clamps.
 *
 * Ranges: each state is clamped to 2^15 in parts of 64, and the coefficients are at most 256, so a row stays below 2^25.
 */

static int state[3], next[3];
static const int model[9] = {
    256, 32, 0,
    0, 250, -16,
    0, 0, 255,
};
static const int observing[3] = {120, 90, -24};
static const int feedback[3] = {96, 40, 20};

static int clamp(int x, int most)
{
    return x > most ? most : x < -most ? -most : x;
}

static void predict(int error)
{
    int i, j;

    #pragma loopbound min 3 max 3
    for (i = 0; i < 3; i++) {
        int sum = observing[i] * error;

        #pragma loopbound min 3 max 3
        for (j = 0; j < 3; j++)
            sum += model[i * 3 + j] * state[j];
        next[i] = clamp(sum / 256, 32767);
    }
    #pragma loopbound min 3 max 3
    for (i = 0; i < 3; i++)
        state[i] = next[i];
}

static int control(int wanted)
{
    int torque = feedback[0] * wanted;
    int i;

    #pragma loopbound min 3 max 3
    for (i = 0; i < 3; i++)
        torque -= feedback[i] * state[i];
    return clamp(torque / 64 / 64, 127);
}

int main(void)
{
    int step;

    #pragma loopbound min 1 max 40
    for (step = 0; step < 40; step++) {
        int wanted = getchar();
        int measured = getchar();

        if (measured == -1)
            break;
        predict(clamp(measured * 64 - state[0], 32767));
        putchar(128 + control(wanted * 64));
    }
    return state[2];
}
