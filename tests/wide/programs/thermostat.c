/* A heating controller of five zones: a program of the day, a hysteresis with a least time on and off, and a boiler that they share. */
#include <stdbool.h>
#include <stdint.h>
#include <stdio.h>

#define ZONES 5
#define PHASES 4
#define MINUTES 90

typedef int16_t decidegree;

enum mode { MODE_OFF, MODE_FROST, MODE_PROGRAM, MODE_COMFORT };
enum valve { VALVE_CLOSED, VALVE_OPENING, VALVE_OPEN, VALVE_CLOSING };

struct phase {
    uint16_t from;
    decidegree target;
};

struct zone {
    enum mode mode;
    enum valve valve;
    uint8_t travel;
    uint8_t rest;
    decidegree measured;
    decidegree band;
    struct phase day[PHASES];
};

static const decidegree fixed_targets[] = {[MODE_FROST] = 50, [MODE_COMFORT] = 215};

static struct zone zones[ZONES] = {
    [0] = {.mode = MODE_PROGRAM, .band = 5, .day = {{0, 160}, {10, 205}, {40, 180}, {70, 160}}},
    [1] = {.mode = MODE_PROGRAM, .band = 8, .day = {[1] = {20, 195}, [3] = {60, 150}}},
    [2] = {.mode = MODE_COMFORT, .band = 4},
    [4] = {MODE_FROST, VALVE_CLOSED, 0, 0, 190, 10, {{0}}},
};

static struct {
    bool burning;
    uint16_t starts;
    uint16_t minutes;
} boiler;

static decidegree target_of(struct zone zone, uint16_t minute)
{
    if (zone.mode != MODE_PROGRAM)
        return fixed_targets[zone.mode];
    decidegree target = zone.day[0].target;
    for (int i = 1; i < PHASES; i++)
        if (zone.day[i].from != 0 && minute >= zone.day[i].from)
            target = zone.day[i].target;
    return target;
}

static enum valve next_valve(uint8_t z, decidegree target)
{
    const decidegree missing = (decidegree)(target - zones[z].measured);
    switch (zones[z].valve) {
    case VALVE_CLOSED:
        return zones[z].rest == 0 && missing > zones[z].band ? VALVE_OPENING : VALVE_CLOSED;
    case VALVE_OPENING:
        return zones[z].travel >= 3 ? VALVE_OPEN : VALVE_OPENING;
    case VALVE_OPEN:
        return missing < -zones[z].band ? VALVE_CLOSING : VALVE_OPEN;
    case VALVE_CLOSING:
        return zones[z].travel == 0 ? VALVE_CLOSED : VALVE_CLOSING;
    }
    return VALVE_CLOSED;
}

static void moved(uint8_t z, enum valve next)
{
    if (next == VALVE_OPENING)
        zones[z].travel++;
    if (next == VALVE_CLOSING && zones[z].travel > 0)
        zones[z].travel--;
    if (next == VALVE_CLOSED && zones[z].valve == VALVE_CLOSING)
        zones[z].rest = 6;
    else if (zones[z].rest > 0)
        zones[z].rest--;
    zones[z].valve = next;
}

static void boil(void)
{
    bool wanted = false;
    for (int z = 0; z < ZONES; z++)
        wanted = wanted || zones[z].valve == VALVE_OPEN;
    if (wanted && !boiler.burning)
        boiler.starts++;
    boiler.burning = wanted;
    boiler.minutes = (uint16_t)(boiler.minutes + boiler.burning);
}

int main(void)
{
    _Static_assert(sizeof zones / sizeof zones[0] == ZONES, "one record a zone");
    for (uint16_t minute = 0; minute < MINUTES; minute++) {
        int sensor = getchar();
        if (sensor < 0)
            break;
        zones[sensor % ZONES].measured = (decidegree)(100 + sensor / ZONES * 3);
        for (uint8_t z = 0; z < ZONES; z++) {
            moved(z, next_valve(z, target_of(zones[z], minute)));
            if (zones[z].valve == VALVE_OPEN && boiler.burning && zones[z].measured < 400)
                zones[z].measured++;
        }
        boil();
        putchar((int)zones[sensor % ZONES].valve | boiler.burning << 4);
    }
    return boiler.starts * 1000 + boiler.minutes;
}
