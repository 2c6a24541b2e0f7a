/*
 * A Kalman filter for position and velocity along one axis, in 16.16 fixed point.
 *
 * The state is x = [position, velocity], the model is a constant velocity with
 * white acceleration noise, and the sensor measures the position with noise.
 *
 * Input:  measurements, two bytes each, high byte first, in 8.8 fixed point.
 * Output: for each one the filtered position, two bytes in 8.8.
 */
#include <stdint.h>
#include <stdbool.h>
#include <stdio.h>
#include <assert.h>

#define FRACTION 16
#define ONE (1L << FRACTION)
#define Q(x) ((q16_t)((x) * ONE))
#define MAX_SAMPLES 100
#define STATES 2

typedef int32_t q16_t;

struct kalman {
    q16_t x[STATES];            /* the estimate */
    q16_t p[STATES][STATES];    /* its covariance */
    q16_t q;                    /* process noise */
    q16_t r;                    /* measurement noise */
    bool primed;
    uint32_t updates;
};

typedef enum { KALMAN_OK, KALMAN_PRIMED, KALMAN_OUTLIER } kalman_status_t;

static const q16_t dt = Q(0.1);

static inline q16_t q_mul(q16_t a, q16_t b)
{
    return (q16_t)(((int64_t)a * b) >> FRACTION);
}

static inline q16_t q_div(q16_t a, q16_t b)
{
    assert(b != 0);
    return (q16_t)(((int64_t)a << FRACTION) / b);
}

static q16_t q_abs(q16_t a)
{
    return a < 0 ? -a : a;
}

static void kalman_init(struct kalman *k, q16_t q, q16_t r)
{
    k->x[0] = 0;
    k->x[1] = 0;
    for (int i = 0; i < STATES; i++) {
        for (int j = 0; j < STATES; j++) {
            k->p[i][j] = i == j ? ONE : 0;
        }
    }
    k->q = q;
    k->r = r;
    k->primed = false;
    k->updates = 0;
}

/* x = F x, P = F P F' + Q with F = [1 dt; 0 1] */
static void kalman_predict(struct kalman *k)
{
    q16_t (*p)[STATES] = k->p;
    q16_t p00, p01, p10, p11;

    k->x[0] += q_mul(dt, k->x[1]);

    p00 = p[0][0] + q_mul(dt, p[1][0] + p[0][1]) + q_mul(q_mul(dt, dt), p[1][1]);
    p01 = p[0][1] + q_mul(dt, p[1][1]);
    p10 = p[1][0] + q_mul(dt, p[1][1]);
    p11 = p[1][1];

    p[0][0] = p00 + q_mul(k->q, dt);
    p[0][1] = p01;
    p[1][0] = p10;
    p[1][1] = p11 + k->q;
}

static kalman_status_t kalman_update(struct kalman *k, q16_t z)
{
    q16_t innovation, s, gain[STATES];

    if (!k->primed) {
        k->x[0] = z;
        k->primed = true;
        return KALMAN_PRIMED;
    }
    innovation = z - k->x[0];
    if (q_abs(innovation) > Q(64.0)) {
        return KALMAN_OUTLIER;
    }
    s = k->p[0][0] + k->r;
    for (int i = 0; i < STATES; i++) {
        gain[i] = q_div(k->p[i][0], s);
    }
    for (int i = 0; i < STATES; i++) {
        k->x[i] += q_mul(gain[i], innovation);
    }
    for (int j = 0; j < STATES; j++) {
        q16_t row = k->p[0][j];

        k->p[0][j] -= q_mul(gain[0], row);
        k->p[1][j] -= q_mul(gain[1], row);
    }
    k->updates++;
    return KALMAN_OK;
}

static bool read_sample(q16_t *z)
{
    int high = getchar();
    int low = getchar();

    if (low == EOF) {
        return false;
    }
    *z = (q16_t)(int16_t)(high << 8 | low) * 256;
    return true;
}

static void write_sample(q16_t value)
{
    uint16_t out = (uint16_t)(value >> 8);

    putchar(out >> 8);
    putchar(out & 0xFF);
}

int main(void)
{
    static struct kalman filter;
    q16_t z;
    int outliers = 0;

    kalman_init(&filter, Q(0.05), Q(0.5));
    for (int n = 0; n < MAX_SAMPLES && read_sample(&z); n++) {
        kalman_predict(&filter);
        switch (kalman_update(&filter, z)) {
        case KALMAN_OUTLIER:
            outliers++;
            break;
        case KALMAN_OK:
        case KALMAN_PRIMED:
            break;
        }
        write_sample(filter.x[0]);
    }
    return outliers;
}
