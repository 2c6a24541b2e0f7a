/* An attitude of three axes in fixed point: matrices by value, small rotations, a complementary filter, and a mode by tilt. */
#include <stdint.h>
#include <stdio.h>

#define ONE 4096
#define READINGS 40

typedef struct {
    int32_t x, y, z;
} vector_t;

typedef struct {
    int32_t m[3][3];
} matrix_t;

enum mode { LEVEL, TILTED, OVERTURNED, MODES };

struct estimate {
    matrix_t attitude;
    vector_t bias;
    enum mode mode;
    uint16_t changes[MODES][MODES];
};

static const matrix_t identity = {{{ONE, 0, 0}, {0, ONE, 0}, {0, 0, ONE}}};
static struct estimate estimate;

static int32_t scaled(int32_t a, int32_t b)
{
    int32_t product = a * b;
    return (product + (product < 0 ? -ONE / 2 : ONE / 2)) / ONE;
}

static int32_t clamped(int32_t value)
{
    return value > 2 * ONE ? 2 * ONE : value < -2 * ONE ? -2 * ONE : value;
}

static matrix_t product(matrix_t a, matrix_t b)
{
    matrix_t c;
    for (int i = 0; i < 3; i++)
        for (int j = 0; j < 3; j++) {
            c.m[i][j] = 0;
            for (int k = 0; k < 3; k++)
                c.m[i][j] += scaled(a.m[i][k], b.m[k][j]);
            c.m[i][j] = clamped(c.m[i][j]);
        }
    return c;
}

static matrix_t rotation(vector_t v)
{
    matrix_t r = identity;
    r.m[0][1] = -v.z;
    r.m[1][0] = v.z;
    r.m[0][2] = v.y;
    r.m[2][0] = -v.y;
    r.m[1][2] = -v.x;
    r.m[2][1] = v.x;
    return r;
}

static vector_t row(const int32_t m[3][3], int i)
{
    return (vector_t){m[i][0], m[i][1], m[i][2]};
}

static vector_t sum(vector_t a, vector_t b, int32_t weight)
{
    return (vector_t){a.x + scaled(b.x, weight), a.y + scaled(b.y, weight), a.z + scaled(b.z, weight)};
}

static enum mode mode_of(vector_t up)
{
    if (up.z > 3 * ONE / 4)
        return LEVEL;
    return up.z > 0 ? TILTED : OVERTURNED;
}

static void step(vector_t rate, vector_t gravity)
{
    vector_t up = row(estimate.attitude.m, 2);
    vector_t error = {up.y - gravity.y, gravity.x - up.x, .z = 0};
    estimate.bias = sum(estimate.bias, error, ONE / 256);
    vector_t turned = sum(sum(rate, estimate.bias, -ONE), error, ONE / 32);
    estimate.attitude = product(estimate.attitude, rotation(turned));
    enum mode next = mode_of(row(estimate.attitude.m, 2));
    estimate.changes[estimate.mode][next]++;
    estimate.mode = next;
}

static int32_t read(int32_t scale)
{
    int byte = getchar();
    return byte < 0 ? 0 : (byte - 128) * scale;
}

int main(void)
{
    estimate.attitude = identity;
    for (int n = 0; n < READINGS; n++) {
        vector_t rate, gravity;
        rate.x = read(4);
        rate.y = read(4);
        rate.z = read(2);
        gravity.x = read(8);
        gravity.y = read(8);
        gravity.z = read(8) + ONE / 2;
        step(rate, gravity);
        putchar((int)estimate.mode);
    }
    int32_t trace = 0;
    for (int i = 0; i < 3; i++) {
        trace += estimate.attitude.m[i][i];
        for (int j = 0; j < MODES; j++)
            putchar(estimate.changes[i][j]);
    }
    return trace + estimate.bias.x;
}
