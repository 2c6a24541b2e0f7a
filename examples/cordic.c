/*
 * Sine and cosine by CORDIC: shifts and sums alone, for a motor whose currents are turned with its rotor.
 *
 * Input:  up to 32 angles, a byte each for a whole turn.
 * Output: two signed bytes per angle, the cosine and the sine times 127.
 * Value:  the sum of the absolute differences of the squares' sum from 1, in parts of 127 * 127, which shows the error.
 *
 * The bounds: 14 steps give 14 bits, whatever the angle is; each step turns one way or the other, by as many instructions.
 *
 * Ranges: the vector is 9949 long at first and 1.65 times that at the end, and angles are within 2^16.
 */

/* The angles whose tangents are 1, 1/2, 1/4, ..: a whole turn is 65536. */
static const int angles[14] = {8192, 4836, 2555, 1297, 651, 326, 163, 81, 41, 20, 10, 5, 3, 1};
static int x, y;

/* Turns (x, y), 0.607 of the wanted length long, by an angle within a quarter of a turn either way. */
static void turn(int left)
{
    int i;

    #pragma loopbound min 14 max 14
    for (i = 0; i < 14; i++) {
        int dx = y >> i;
        int dy = x >> i;

        if (left < 0) {
            x += dx;
            y -= dy;
            left += angles[i];
        } else {
            x -= dx;
            y += dy;
            left -= angles[i];
        }
    }
}

static int scaled(int value)
{
    return (value * 127 + 8192 >> 14) & 255;
}

int main(void)
{
    int error = 0;
    int count, c;

    #pragma loopbound min 1 max 32
    for (count = 0; count < 32; count++) {
        int angle, difference;

        c = getchar();
        if (c == -1)
            break;
        angle = c * 256;
        x = 9949;
        y = 0;
        if (angle > 16384 && angle < 49152) {
            x = -x;
            angle -= 32768;
        }
        turn(angle > 32768 ? angle - 65536 : angle);
        putchar(scaled(x));
        putchar(scaled(y));
        difference = (x / 128) * (x / 128) + (y / 128) * (y / 128) - 16384;
        error += difference < 0 ? -difference : difference;
    }
    return error;
}
