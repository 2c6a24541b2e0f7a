/*
 * The state machine of a motor-driven gate.
 *
 * Input:  up to 100 events, one letter each: 'b' the button, 'o' the switch of the open end, 'c' the switch of the closed
 *         end, 'x' the light barrier, and any other byte for nothing.
 * Output: after each event one letter for the motor: 'U' up, 'D' down, 'S' stopped.
 * Value:  the last state, and 256 for each time that the light barrier turned the gate round.
 *
 * The loop ends at the latest after 100 events. Its body starts at least once, since it is the body that sees the input
 * end. The gate stops to close only after it began to, and begins to close only after it was open: each of these is an
 * event of its own. So of 100 events at most a third can end with it, which no loop bound can say: these are restrictions on
 * how often the markers are reached.
 */

#pragma flowrestriction 1*closing <= 1*opened
#pragma flowrestriction 1*reversal + 1*closed + 1*halted <= 1*closing

static int state;                       /* 0 closed, 1 opening, 2 open, 3 closing, 4 halted */
static int reversals;

static void event(int what)
{
    switch (state) {
    case 1:
        if (what == 'o') {
            #pragma marker opened
            state = 2;
        } else if (what == 'b') {
            state = 4;
        }
        break;
    case 2:
        if (what == 'b') {
            #pragma marker closing
            state = 3;
        }
        break;
    case 3:
        if (what == 'x') {
            #pragma marker reversal
            reversals++;
            state = 1;
        } else if (what == 'c') {
            #pragma marker closed
            state = 0;
        } else if (what == 'b') {
            #pragma marker halted
            state = 4;
        }
        break;
    default:                            /* it stands; after a fault in memory too only the button moves it */
        if (what == 'b')
            state = 1;
    }
}

static char motor(void)
{
    return state == 1 ? 'U' : state == 3 ? 'D' : 'S';
}

int main(void)
{
    int count;

    #pragma loopbound min 1 max 100
    for (count = 0; count < 100; count++) {
        int what = getchar();

        if (what == -1)
            break;
        event(what);
        putchar(motor());
    }
    return state + 256 * reversals;
}
