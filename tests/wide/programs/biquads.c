/* A bank of second-order filters in fixed point: sections in series with state of their own, levels with decay, and a limiter. */
#include <stdint.h>
#include <stdio.h>

#define BANDS 3
#define SECTIONS 2
#define SAMPLES 120
#define ONE 4096

typedef int32_t q12;

struct section {
    int16_t b0, b1, b2, a1, a2;
};

struct state {
    q12 x1, x2, y1, y2;
};

struct band {
    char name[8];
    struct section sections[SECTIONS];
    int16_t gain;
};

static const struct band bands[BANDS] = {
    {"low", {{120, 240, 120, -6800, 3100}, {100, 200, 100, -6500, 2800}}, ONE},
    {"middle", {[0] = {.b0 = 600, .b2 = -600, .a1 = -6000, .a2 = 2900}, [1] = {900, 0, -900, -5200, 2300}}, .gain = 3 * ONE / 2},
    {.name = "high", .sections = {{2100, -4200, 2100, -3300, 1000}, {.b0 = ONE}}, .gain = ONE / 2},
};

static struct state states[BANDS][SECTIONS];
static q12 levels[BANDS];

static q12 limited(q12 value, q12 limit)
{
    return value > limit ? limit : value < -limit ? -limit : value;
}

static struct state shifted(struct state s, q12 x, q12 y)
{
    s.x2 = s.x1;
    s.x1 = x;
    s.y2 = s.y1;
    s.y1 = y;
    return s;
}

static q12 filtered(int band, int number, q12 x)
{
    struct section c = bands[band].sections[number];
    struct state s = states[band][number];
    q12 sum = c.b0 * x + c.b1 * s.x1 + c.b2 * s.x2 - c.a1 * s.y1 - c.a2 * s.y2;
    q12 y = limited(sum / ONE, 8 * ONE);
    states[band][number] = shifted(s, x, y);
    return y;
}

static q12 banded(int band, q12 x)
{
    for (int i = 0; i < SECTIONS; i++)
        x = filtered(band, i, x);
    q12 y = x * bands[band].gain / ONE;
    q12 size = y < 0 ? -y : y;
    if (size > levels[band])
        levels[band] = size;
    else
        levels[band] -= levels[band] >> 4;
    return y;
}

/* A gain that falls where the sum is too loud, and rises slowly. */
static q12 mixed(q12 sum)
{
    static q12 gain = ONE;
    q12 y = sum / 4 * gain / ONE;
    if (y > ONE || y < -ONE)
        gain -= gain / 16;
    else if (gain < ONE)
        gain += 8;
    return limited(y, 2 * ONE);
}

int main(void)
{
    int clipped = 0;
    for (int n = 0; n < SAMPLES; n++) {
        int byte = getchar();
        q12 x = byte < 0 ? 0 : (byte - 128) * 16, sum = 0;
        for (int b = 0; b < BANDS; b++)
            sum += banded(b, x);
        q12 y = mixed(sum);
        if (y == 2 * ONE || y == -2 * ONE)
            clipped++;
        putchar((int)(y >> 6) & 255);
    }
    for (int b = 0; b < BANDS; b++) {
        for (unsigned i = 0; i < sizeof bands[b].name && bands[b].name[i] != '\0'; i++)
            putchar(bands[b].name[i]);
        putchar((int)(levels[b] >> 5) & 255);
    }
    return clipped;
}
