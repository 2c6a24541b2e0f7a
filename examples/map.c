/*
 * An engine's map: the advance of ignition over speed and load, with straight lines between its points in both directions.
 *
 * Input:  up to 48 pairs of bytes, speed and load, each 0..255 for the whole range.
 * Output: one byte per pair, the advance in half degrees.
 * Value:  the greatest advance.
 *
 * The bounds: the map has 8 by 8 points, 36 apart, so that a point is found by a quotient and no search: one path but for the
 * end of the input and the clamp at the last point.
 */

static const unsigned char advance[64] = {
    20, 24, 30, 36, 42, 48, 52, 54,
    20, 25, 32, 38, 45, 51, 55, 57,
    18, 24, 31, 38, 46, 52, 56, 58,
    16, 22, 29, 36, 44, 50, 54, 56,
    14, 19, 26, 33, 40, 46, 50, 52,
    12, 16, 22, 29, 36, 42, 46, 48,
    10, 13, 18, 25, 31, 37, 41, 43,
    8, 11, 15, 20, 26, 32, 36, 38,
};

/* The value at a part of the way from one to another, in parts of 36. */
static int between(int from, int to, int part)
{
    return from + (to - from) * part / 36;
}

static int look_up(int speed, int load)
{
    int column = speed / 36;
    int row = load / 36;
    int low, high;

    if (column > 6)
        column = 6;
    if (row > 6)
        row = 6;
    low = between(advance[row * 8 + column], advance[row * 8 + column + 1], speed - column * 36);
    high = between(advance[row * 8 + column + 8], advance[row * 8 + column + 9], speed - column * 36);
    return between(low, high, load - row * 36);
}

int main(void)
{
    int greatest = 0;
    int count;

    #pragma loopbound min 1 max 48
    for (count = 0; count < 48; count++) {
        int speed = getchar();
        int load = getchar();
        int found;

        if (load == -1)
            break;
        found = look_up(speed, load);
        putchar(found);
        if (found > greatest)
            greatest = found;
    }
    return greatest;
}
