/* A dosing pump: recipes of steps, a state machine with times, a flow sensor that is checked, and a latch for faults. */
#include <stdbool.h>
#include <stdint.h>
#include <stdio.h>

#define RECIPES 3
#define STEPS 4
#define TICKS 160

enum state { IDLE, PRIMING, DOSING, SETTLING, FAULT };
enum cause { NO_CAUSE, DRY, BLOCKED, LEAK };

struct step {
    uint16_t volume;
    uint8_t speed;
    uint8_t settle;
};

struct recipe {
    char name[4];
    uint8_t count;
    struct step steps[STEPS];
};

struct pump {
    enum state state;
    enum cause cause;
    const uint8_t number;
    uint8_t recipe, step;
    uint16_t time, dosed;
    uint32_t total;
};

static const struct recipe recipes[RECIPES] = {
    {"CL2", 2, {{100, 5, 3}, {40, 2, 6}}},
    {.name = "PH-", .count = 1, .steps[0] = {.volume = 70, .speed = 7}},
    {.name = {'F', 'L', 'O', 'C'}, .count = 4, .steps = {{10, 1, 1}, {20, 2, 1}, {30, 3, 1}, {.volume = 5, .speed = 5}}},
};

static struct pump pump = {.number = 7};

static struct step current(void)
{
    return recipes[pump.recipe].steps[pump.step];
}

static enum state failed(enum cause cause)
{
    if (pump.cause == NO_CAUSE)
        pump.cause = cause;
    return FAULT;
}

static enum state dosing(uint8_t flow)
{
    struct step step = current();
    if (flow + 4 < step.speed)
        return failed(pump.time < 3 ? DRY : BLOCKED);
    pump.dosed = (uint16_t)(pump.dosed + flow);
    pump.total += flow;
    if (pump.dosed < step.volume)
        return DOSING;
    pump.dosed = 0;
    return SETTLING;
}

static enum state settling(uint8_t flow)
{
    if (flow > 6)
        return failed(LEAK);
    if (pump.time <= current().settle)
        return SETTLING;
    if (++pump.step < recipes[pump.recipe].count)
        return DOSING;
    pump.step = 0;
    return IDLE;
}

static enum state next(uint8_t flow, bool start, bool reset)
{
    switch (pump.state) {
    case IDLE:
        return start ? PRIMING : IDLE;
    case PRIMING:
        return flow > 1 ? DOSING : pump.time > 5 ? failed(DRY) : PRIMING;
    case DOSING:
        return dosing(flow);
    case SETTLING:
        return settling(flow);
    case FAULT:
        if (!reset)
            return FAULT;
        pump.cause = NO_CAUSE;
        pump.step = 0;
        pump.dosed = 0;
        return IDLE;
    }
    return FAULT;
}

static void tick(uint8_t byte)
{
    bool command = byte >= 0xf0;
    uint8_t flow = command ? 0 : byte & 7;
    if (command && pump.state == IDLE)
        pump.recipe = byte % RECIPES;
    enum state state = next(flow, command, byte == 0xff);
    if (state != pump.state) {
        pump.time = 0;
        putchar("IPDSF"[state]);
        if (state == PRIMING)
            for (int i = 0; i < 4 && recipes[pump.recipe].name[i]; i++)
                putchar(recipes[pump.recipe].name[i]);
    } else {
        pump.time++;
    }
    pump.state = state;
}

int main(void)
{
    for (int n = 0; n < TICKS; n++) {
        int byte = getchar();
        if (byte < 0)
            break;
        tick((uint8_t)byte);
    }
    putchar((int)pump.cause);
    return (int)pump.total + pump.number;
}
