/* Moves of three stepper motors along straight lines: a queue of segments, Bresenham's steps, limits of travel, and speed by distance. */
#include <stdbool.h>
#include <stdint.h>
#include <stdio.h>

#define AXES 3
#define SEGMENTS 4

typedef int16_t position[AXES];

enum result { DONE, BUSY, OUT_OF_REACH, FULL };

struct segment {
    int16_t delta[AXES];
    uint16_t length;
    uint8_t speed;
};

struct axis {
    int16_t at;
    int16_t least, greatest;
    int16_t error;
    uint32_t steps;
};

static struct axis axes[AXES] = {
    {.greatest = 200}, {.least = -50, .greatest = 150}, {0, -20, 20, 0, 0},
};
static struct segment segments[SEGMENTS];
static uint8_t first, count;
static position planned;

static uint16_t size_of(int16_t value)
{
    return (uint16_t)(value < 0 ? -value : value);
}

static enum result planned_to(const position target, uint8_t speed)
{
    if (count == SEGMENTS)
        return FULL;
    struct segment s = {.speed = speed};
    for (int a = 0; a < AXES; a++) {
        if (target[a] < axes[a].least || target[a] > axes[a].greatest)
            return OUT_OF_REACH;
        s.delta[a] = (int16_t)(target[a] - planned[a]);
        if (size_of(s.delta[a]) > s.length)
            s.length = size_of(s.delta[a]);
    }
    for (int a = 0; a < AXES; a++)
        planned[a] = target[a];
    segments[(first + count) % SEGMENTS] = s;
    count++;
    return DONE;
}

static uint8_t stepped(struct segment s)
{
    uint8_t pulses = 0;
    for (int a = 0; a < AXES; a++) {
        axes[a].error = (int16_t)(axes[a].error + size_of(s.delta[a]));
        if (2 * axes[a].error < s.length)
            continue;
        axes[a].error = (int16_t)(axes[a].error - s.length);
        axes[a].at = (int16_t)(axes[a].at + (s.delta[a] < 0 ? -1 : 1));
        axes[a].steps++;
        pulses |= (uint8_t)(1 << a);
    }
    return pulses;
}

static enum result driven(void)
{
    static uint16_t done;
    if (count == 0)
        return DONE;
    struct segment s = segments[first];
    uint16_t left = (uint16_t)(s.length - done);
    uint16_t slope = left < done ? left : done;
    uint16_t steps = (uint16_t)(1 + (slope < s.speed ? slope : s.speed) / 2);
    do {
        if (done == s.length)
            break;
        putchar(stepped(s));
        done++;
    } while (--steps > 0);
    if (done < s.length)
        return BUSY;
    done = 0;
    first = (uint8_t)((first + 1) % SEGMENTS);
    count--;
    for (int a = 0; a < AXES; a++)
        axes[a].error = 0;
    return DONE;
}

int main(void)
{
    uint16_t results[FULL + 1] = {0};
    for (int n = 0; n < 60; n++) {
        int byte = getchar();
        if (byte < 0)
            break;
        if (byte & 1) {
            position target = {[0] = (int16_t)byte, (int16_t)(byte / 2 - 60), [2] = (int16_t)(byte % 50 - 25)};
            results[planned_to(target, (uint8_t)(byte & 7))]++;
        }
        results[driven()]++;
    }
    int sum = 0;
    for (int a = 0; a < AXES; a++)
        sum = sum * 100 + axes[a].at + (int)axes[a].steps;
    for (unsigned r = 0; r < sizeof results / sizeof results[0]; r++)
        putchar(results[r]);
    return sum;
}
