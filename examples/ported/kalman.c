/*
 * A Kalman filter for position and velocity along one axis, in 16.16 fixed point.
 *
 * The state is x = [position, velocity], the model is a constant velocity with
 * white acceleration noise, and the sensor measures the position with noise.
 *
 * Input:  measurements, two bytes each, high byte first, in 8.8 fixed point.
 * Output: for each one the filtered position, two bytes in 8.8.
 *
 * The bounds: no more than MAX_SAMPLES measurements are read, and all other loops
 * go over the states.
 */
#include <stdint.h>
#include <stdbool.h>
#include <stdio.h>
#include <assert.h>
#include <wcc.h>
#include <wide.h>

#define FRACTION 16
#define ONE (1L << FRACTION)
#define Q_PARTS(n, of) ((q16_t)((n) * ONE / (of)))      /* n / of */
#define MAX_SAMPLES 100
#define STATES 2

#define q16_t int32_t

#define KALMAN_OK 0
#define KALMAN_PRIMED 1
#define KALMAN_OUTLIER 2

static q16_t kalman_x[STATES];              /* the estimate */
static q16_t kalman_p[STATES * STATES];     /* its covariance */
static q16_t kalman_q;                      /* process noise */
static q16_t kalman_r;                      /* measurement noise */
static bool kalman_primed;
static uint32_t kalman_updates;

#define P(i, j) kalman_p[(i) * STATES + (j)]

static const q16_t dt = Q_PARTS(1, 10);

static inline q16_t q_mul(q16_t a, q16_t b)
{
    return mul_shift(a, b, FRACTION);
}

static inline q16_t q_div(q16_t a, q16_t b)
{
    assert(b != 0);
    return div_shift(a, b, FRACTION);
}

static q16_t q_abs(q16_t a)
{
    return a < 0 ? -a : a;
}

static void kalman_init(q16_t q, q16_t r)
{
    kalman_x[0] = 0;
    kalman_x[1] = 0;
    LOOPBOUND(STATES, STATES)
    for (int i = 0; i < STATES; i++) {
        LOOPBOUND(STATES, STATES)
        for (int j = 0; j < STATES; j++) {
            P(i, j) = i == j ? ONE : 0;
        }
    }
    kalman_q = q;
    kalman_r = r;
    kalman_primed = false;
    kalman_updates = 0;
}

/* x = F x, P = F P F' + Q with F = [1 dt; 0 1] */
static void kalman_predict(void)
{
    q16_t p00, p01, p10, p11;

    kalman_x[0] += q_mul(dt, kalman_x[1]);

    p00 = P(0, 0) + q_mul(dt, P(1, 0) + P(0, 1)) + q_mul(q_mul(dt, dt), P(1, 1));
    p01 = P(0, 1) + q_mul(dt, P(1, 1));
    p10 = P(1, 0) + q_mul(dt, P(1, 1));
    p11 = P(1, 1);

    P(0, 0) = p00 + q_mul(kalman_q, dt);
    P(0, 1) = p01;
    P(1, 0) = p10;
    P(1, 1) = p11 + kalman_q;
}

static int kalman_update(q16_t z)
{
    q16_t innovation, s, gain[STATES];

    if (!kalman_primed) {
        kalman_x[0] = z;
        kalman_primed = true;
        return KALMAN_PRIMED;
    }
    innovation = z - kalman_x[0];
    if (q_abs(innovation) > 64 * ONE) {
        return KALMAN_OUTLIER;
    }
    s = P(0, 0) + kalman_r;
    LOOPBOUND(STATES, STATES)
    for (int i = 0; i < STATES; i++) {
        gain[i] = q_div(P(i, 0), s);
    }
    LOOPBOUND(STATES, STATES)
    for (int i = 0; i < STATES; i++) {
        kalman_x[i] += q_mul(gain[i], innovation);
    }
    LOOPBOUND(STATES, STATES)
    for (int j = 0; j < STATES; j++) {
        q16_t row = P(0, j);

        P(0, j) -= q_mul(gain[0], row);
        P(1, j) -= q_mul(gain[1], row);
    }
    kalman_updates++;
    return KALMAN_OK;
}

static bool read_sample(q16_t z[1])
{
    int high = getchar();
    int low = getchar();

    if (low == EOF) {
        return false;
    }
    z[0] = (q16_t)(int16_t)(high << 8 | low) * 256;
    return true;
}

static void write_sample(q16_t value)
{
    uint16_t out = (uint16_t)(value >> 8);

    putchar(out >> 8);
    putchar(out & 0xFF);
}

int main(void)
{
    q16_t z[1];
    int outliers = 0;

    kalman_init(Q_PARTS(5, 100), Q_PARTS(1, 2));
    LOOPBOUND(0, MAX_SAMPLES)
    for (int n = 0; n < MAX_SAMPLES && read_sample(z); n++) {
        kalman_predict();
        switch (kalman_update(z[0])) {
        case KALMAN_OUTLIER:
            outliers++;
            break;
        case KALMAN_OK:
        case KALMAN_PRIMED:
            break;
        }
        write_sample(kalman_x[0]);
    }
    return outliers;
}
