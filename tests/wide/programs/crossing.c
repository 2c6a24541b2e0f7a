/* The lights of a crossing: phases in a table, requests of pedestrians, a green wave by the clock, and a conflict monitor. */
#include <stdbool.h>
#include <stdint.h>
#include <stdio.h>

#define LIGHTS 6
#define PHASES 5
#define SECONDS 150

enum colour { DARK, RED, RED_YELLOW, GREEN, YELLOW };
enum light { NORTH, SOUTH, EAST, WEST, WALK_NORTH, WALK_EAST };

struct phase {
    enum colour shown[LIGHTS];
    uint8_t least, greatest;
    enum light wanted_by;
    uint8_t next;
};

struct request {
    bool pending;
    uint8_t waited;
};

static const struct phase phases[] = {
    {{GREEN, GREEN, RED, RED, RED, GREEN}, 5, 20, NORTH, 1},
    {{YELLOW, YELLOW, RED, RED, RED, RED}, 2, 2, NORTH, 2},
    {{RED, RED, RED_YELLOW, RED_YELLOW, RED, RED}, .least = 1, .greatest = 1, .next = 3},
    {{[EAST] = GREEN, [WEST] = GREEN, [NORTH] = RED, [SOUTH] = RED, [WALK_NORTH] = GREEN, [WALK_EAST] = RED}, 4, 15, EAST, 4},
    {{RED, RED, YELLOW, YELLOW, RED, RED}, 3, 3, EAST, 0},
};
_Static_assert(sizeof phases == PHASES * sizeof(struct phase), "as many phases as are said");

/* Which lights must never be green together. */
static const bool conflicts[LIGHTS][LIGHTS] = {
    [NORTH] = {[EAST] = true, [WEST] = true, [WALK_NORTH] = true},
    [SOUTH] = {[EAST] = true, [WEST] = true, [WALK_NORTH] = true},
    [EAST] = {[WALK_EAST] = true},
    [WEST] = {[WALK_EAST] = true},
};

static struct request requests[LIGHTS];
static uint8_t phase, seconds;
static bool failed;

static bool waits_elsewhere(void)
{
    for (int l = 0; l < LIGHTS; l++)
        if (requests[l].pending && phases[phase].shown[l] != GREEN)
            return true;
    return false;
}

static bool conflicting(const enum colour shown[LIGHTS])
{
    for (int a = 0; a < LIGHTS; a++)
        for (int b = 0; b < LIGHTS; b++)
            if (conflicts[a][b] && shown[a] == GREEN && shown[b] == GREEN)
                return true;
    return false;
}

static void serve(void)
{
    for (int l = 0; l < LIGHTS; l++) {
        if (phases[phase].shown[l] == GREEN)
            requests[l] = (struct request){false, 0};
        else if (requests[l].pending && requests[l].waited < UINT8_MAX)
            requests[l].waited++;
    }
}

static void second(uint8_t clock)
{
    struct phase now = phases[phase];
    bool wave = clock % 60 < 10 && now.wanted_by == NORTH;
    seconds++;
    if (seconds >= now.greatest || (seconds >= now.least && waits_elsewhere() && !wave)) {
        phase = now.next;
        seconds = 0;
    }
    failed = failed || conflicting(phases[phase].shown);
    serve();
}

int main(void)
{
    uint8_t longest = 0;
    for (uint8_t clock = 0; clock < SECONDS; clock++) {
        int byte = getchar();
        if (byte >= 0 && byte < LIGHTS * 8)
            requests[byte % LIGHTS].pending = true;
        second(clock);
        for (int l = 0; l < LIGHTS; l++)
            if (requests[l].waited > longest)
                longest = requests[l].waited;
        putchar(phase << 5 | seconds);
    }
    return failed ? -1 : longest;
}
