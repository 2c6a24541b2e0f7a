/*
 * The state machine of a lift with eight floors.
 *
 * Input:  up to 96 bytes, one a tick: '0' to '7' calls the lift to that floor, all else is a tick without a call.
 * Output: one byte per tick: the floor, 0 to 7, with 16 while it goes up, 32 while it goes down and 64 while its door is open.
 * Value:  the number of floors that it passed.
 *
 * The bounds: each tick does one step of the machine, and each state looks at the calls by their bits, so that no loop
 * searches them: the calls above the floor are those in the bits above it.
 *
 * What no bound of a loop says: a lift that has set out opens its door before it sets out again, and shuts it before it opens
 * it again; a door is open for three ticks until it is shut. And in a tick with a call the lift stays only where the call is
 * for the floor at which its door was open until now: once for each opening.
 */

#pragma flowrestriction 1*up + 1*down <= 1*opening + 1*main
#pragma flowrestriction 1*opening <= 1*shut + 1*main
#pragma flowrestriction 3*shut <= 1*open
#pragma flowrestriction 1*call + 1*stay <= 96*main + 1*opening

static int calls;       /* a bit for each floor */
static int floor_at, open_for, passed;
static int state;       /* 0 waits, 1 goes up, 2 goes down, 3 has its door open */

static const char lamps[4] = {0, 16, 32, 64};

/* What a lift does that isn't moving: up where a call is above, and else down where one is below. */
static int direction(void)
{
    if (calls >> floor_at + 1) {
        #pragma marker up
        return 1;
    }
    if (calls & (1 << floor_at) - 1) {
        #pragma marker down
        return 2;
    }
    #pragma marker stay
    return 0;
}

static void step(void)
{
    int is_called = calls >> floor_at & 1;

    switch (state) {
    case 3:
        #pragma marker open
        if (--open_for == 0) {
            #pragma marker shut
            state = direction();
        }
        break;
    case 1:
    case 2:
        if (!is_called) {
            floor_at += state == 1 ? 1 : -1;
            passed++;
            break;
        }
        /* the floor is called: open here */
    default:
        if (is_called) {
            #pragma marker opening
            calls &= ~(1 << floor_at);
            open_for = 3;
            state = 3;
        } else {
            state = direction();
        }
    }
}

int main(void)
{
    int tick, c;

    #pragma loopbound min 1 max 96
    for (tick = 0; tick < 96; tick++) {
        c = getchar();
        if (c == -1)
            break;
        if (c >= '0' && c <= '7') {
            #pragma marker call
            calls |= 1 << c - '0';
        }
        step();
        putchar(floor_at | lamps[state]);
    }
    return passed;
}
