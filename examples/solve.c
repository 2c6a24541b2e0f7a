/*
 * Three equations in three unknowns, solved by elimination without fractions (Bareiss), as a calibration does it.
 *
 * Input:  up to 8 systems of 12 signed bytes: three rows of three coefficients and a right side.
 * Output: three signed bytes per system, the unknowns rounded towards zero; 0, 0, 0 where the determinant is 0 or an unknown is
 *         no signed byte.
 * Value:  the number of systems that were solved.
 *
 * The bounds: the step k of two has rows behind k and columns behind k, so 2 and 1 rows, 3 and 2 columns: the bounds of
 * loops allow 2 rows and 3 columns in both, and restrictions say that both have 3 rows and 8 places together. There are 8
 * systems; that no ninth one is read, only to find that the input has ended, is a restriction too.
 *
 * Ranges: all bytes are halved when they are read, to 64. So an entry is at most 2 * 64^2 = 2^13 behind the first step, two
 * products of such ones are at most 2^27, and what they are divided by leaves at most 6 * 64^3. An unknown is at most 128
 * before it is multiplied.
 */

#pragma flowrestriction 1*row <= 3*solve
#pragma flowrestriction 1*cleared <= 8*solve
#pragma flowrestriction 1*entry <= 96*main

static int m[12];       /* rows of four */

/* Clears the column k below its diagonal. Answers the pivot, or 0 where there is none. */
static int eliminate(int k, int before)
{
    int pivot = m[k * 5];
    int i, j;

    #pragma loopbound min 1 max 2
    for (i = k + 1; i < 3; i++) {
        #pragma marker row
        #pragma loopbound min 2 max 3
        for (j = k + 1; j < 4; j++) {
            #pragma marker cleared
            m[i * 4 + j] = (pivot * m[i * 4 + j] - m[i * 4 + k] * m[k * 4 + j]) / before;
        }
    }
    return pivot;
}

static int is_byte(int x)
{
    return x >= -128 && x <= 127;
}

/* Whether the three unknowns are put into the right sides. */
static int solve(void)
{
    int first = eliminate(0, 1);
    int second = first ? eliminate(1, first) : 0;
    int x, y, z;

    if (!second || !m[10])
        return 0;
    z = m[11] / m[10];
    if (!is_byte(z))
        return 0;
    y = (m[7] - m[6] * z) / m[5];
    if (!is_byte(y))
        return 0;
    x = (m[3] - m[1] * y - m[2] * z) / m[0];
    m[3] = x;
    m[7] = y;
    m[11] = z;
    return is_byte(x);
}

int main(void)
{
    int solved = 0;
    int system, i, c;

    #pragma loopbound min 1 max 8
    for (system = 0; system < 8; system++) {
        int is_solved;

        c = -1;
        #pragma loopbound min 12 max 12
        for (i = 0; i < 12; i++) {
            #pragma marker entry
            c = getchar();
            m[i] = (signed char)c / 2;
        }
        if (c == -1)
            break;
        is_solved = solve();
        solved += is_solved;
        putchar(is_solved ? m[3] : 0);
        putchar(is_solved ? m[7] : 0);
        putchar(is_solved ? m[11] : 0);
    }
    return solved;
}
