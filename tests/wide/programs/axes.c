/* Position control of four axes: a trapezoidal reference, a PI controller with a limited integral, and a supervisor of faults.
   Each input record is an axis and a signed step of its encoder; the output has the commands and the states at the end. */
#include <stdint.h>
#include <stdio.h>

#define AXES 4
#define CYCLES 64

typedef int32_t fixed; /* 1/256 of an encoder step */

enum axis_state { AXIS_OFF, AXIS_HOMING, AXIS_RUNNING, AXIS_FAULT = 7 };

struct reference {
    fixed position;
    fixed speed;
    fixed target;
    fixed top_speed;
    fixed ramp;
};

struct controller {
    int16_t kp, ki;
    fixed integral;
    fixed limit;
};

struct axis {
    enum axis_state state;
    struct reference reference;
    struct controller controller;
    fixed measured;
    uint8_t misses;
    int16_t command;
};

static struct axis axes[AXES];
static uint16_t faults;

static fixed clamped(fixed value, fixed limit)
{
    if (value > limit)
        return limit;
    if (value < -limit)
        return -limit;
    return value;
}

static struct reference advanced(struct reference r)
{
    fixed left = r.target - r.position;
    fixed wanted = clamped(left / 4, r.top_speed);
    if (wanted > r.speed + r.ramp)
        r.speed += r.ramp;
    else if (wanted < r.speed - r.ramp)
        r.speed -= r.ramp;
    else
        r.speed = wanted;
    r.position += r.speed;
    return r;
}

static int16_t controlled(uint8_t number)
{
    fixed error = axes[number].reference.position - axes[number].measured;
    struct controller c = axes[number].controller;
    c.integral = clamped(c.integral + error * c.ki / 16, c.limit);
    axes[number].controller = c;
    return (int16_t)clamped((error * c.kp + c.integral) / 256, 1000);
}

static void watch(uint8_t number)
{
    fixed error = axes[number].reference.position - axes[number].measured;
    if (error > 8192 || error < -8192)
        axes[number].misses++;
    else
        axes[number].misses = 0;
    if (axes[number].misses > 10) {
        axes[number].state = AXIS_FAULT;
        axes[number].command = 0;
        faults |= (uint16_t)(1u << number);
    }
}

static void start(void)
{
    const struct controller gains[AXES] = {
        {.kp = 40, .ki = 3, .limit = 20000},
        {.kp = 24, .ki = 2, .limit = 16000},
        {40, 1, 0, 12000},
        {.ki = 5, .kp = 12, .limit = 30000},
    };
    for (uint8_t i = 0; i < AXES; i++) {
        axes[i].controller = gains[i];
        axes[i].reference = (struct reference){.target = 1000 * (i + 1), .top_speed = 300, .ramp = 16};
        axes[i].state = AXIS_HOMING;
    }
}

static void cycle(void)
{
    for (uint8_t i = 0; i < AXES; i++) {
        switch (axes[i].state) {
        case AXIS_HOMING:
            axes[i].measured = 0;
            axes[i].state = AXIS_RUNNING;
            break;
        case AXIS_RUNNING:
            axes[i].reference = advanced(axes[i].reference);
            axes[i].command = controlled(i);
            watch(i);
            break;
        case AXIS_OFF:
        case AXIS_FAULT:
        default:
            break;
        }
    }
}

static void put16(uint16_t value)
{
    putchar(value & 0xff);
    putchar(value >> 8);
}

int main(void)
{
    start();
    for (int n = 0; n < CYCLES; n++) {
        int which = getchar();
        int step = getchar();
        if (step < 0)
            break;
        axes[which % AXES].measured += (int8_t)step * 16;
        cycle();
    }
    for (uint8_t i = 0; i < AXES; i++) {
        putchar(axes[i].state);
        put16((uint16_t)axes[i].command);
        put16((uint16_t)(axes[i].reference.position >> 4));
    }
    return faults;
}
