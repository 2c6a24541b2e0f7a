/* A battery monitor: cells in modules, their least and greatest voltage, balancing, a count of charge, and a contactor's states. */
#include <stdbool.h>
#include <stdint.h>
#include <stdio.h>

#define MODULES 3
#define CELLS 4
#define ROUNDS 12

typedef uint16_t millivolt;

struct module {
    millivolt cells[CELLS];
    uint8_t balance;
    int8_t temperature;
};

struct extremes {
    millivolt least, greatest;
    uint8_t module, cell;
};

enum contactor { OPEN, PRECHARGE, CLOSED, LOCKED };

enum alarm { UNDERVOLTAGE = 1, OVERVOLTAGE = 2, HOT = 4, COLD = 8, SPREAD = 16 };

struct pack {
    struct module modules[MODULES];
    enum contactor contactor;
    uint8_t alarms;
    uint8_t held;
    int32_t charge;
};

static struct pack pack = {
    .modules = {{.temperature = 20}, {.temperature = 21}, {.temperature = 19}},
    .charge = 40000,
};

static struct extremes extremes_of(const struct module modules[])
{
    struct extremes e = {.least = UINT16_MAX};
    for (uint8_t m = 0; m < MODULES; m++)
        for (uint8_t c = 0; c < CELLS; c++) {
            millivolt v = modules[m].cells[c];
            if (v < e.least) {
                e.least = v;
                e.module = m;
                e.cell = c;
            }
            if (v > e.greatest)
                e.greatest = v;
        }
    return e;
}

static uint8_t balanced(const millivolt cells[CELLS], millivolt least)
{
    uint8_t bits = 0;
    for (int c = 0; c < CELLS; c++)
        if (cells[c] > least + 30)
            bits |= (uint8_t)(1u << c);
    return bits;
}

static uint8_t alarms_of(struct extremes e)
{
    unsigned alarms = 0;
    if (e.least < 2800)
        alarms |= UNDERVOLTAGE;
    if (e.greatest > 4200)
        alarms |= OVERVOLTAGE;
    if (e.greatest - e.least > 800)
        alarms |= SPREAD;
    for (int m = 0; m < MODULES; m++) {
        if (pack.modules[m].temperature > 60)
            alarms |= HOT;
        if (pack.modules[m].temperature < -10)
            alarms |= COLD;
    }
    return (uint8_t)alarms;
}

static enum contactor next(bool wanted)
{
    static uint8_t waited;
    switch (pack.contactor) {
    case OPEN:
        waited = 0;
        return wanted && pack.alarms == 0 ? PRECHARGE : OPEN;
    case PRECHARGE:
        if (pack.alarms)
            return OPEN;
        return ++waited > 2 ? CLOSED : PRECHARGE;
    case CLOSED:
        if (pack.alarms & (OVERVOLTAGE | HOT))
            return LOCKED;
        return wanted && !pack.alarms ? CLOSED : OPEN;
    default:
        return LOCKED;
    }
}

static bool read_round(void)
{
    for (int m = 0; m < MODULES; m++) {
        for (int c = 0; c < CELLS; c++) {
            int v = getchar();
            if (v < 0)
                return false;
            pack.modules[m].cells[c] = (millivolt)(3000 + v * 5);
        }
        int t = getchar();
        if (t < 0)
            return false;
        pack.modules[m].temperature = (int8_t)(t / 4 + 5);
    }
    return true;
}

int main(void)
{
    for (int n = 0; n < ROUNDS && read_round(); n++) {
        struct extremes e = extremes_of(pack.modules);
        pack.alarms = alarms_of(e);
        for (int m = 0; m < MODULES; m++) {
            pack.modules[m].balance = balanced(pack.modules[m].cells, e.least);
            putchar(pack.modules[m].balance);
        }
        pack.contactor = next(n % 8 != 7);
        if (pack.contactor == CLOSED)
            pack.charge -= (e.greatest - e.least) / 3;
        putchar(pack.alarms);
        putchar((int)pack.contactor);
        putchar(e.module << 4 | e.cell);
    }
    return pack.charge;
}
