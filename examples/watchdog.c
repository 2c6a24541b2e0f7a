/*
 * A watchdog over three tasks: each must report within its own number of ticks, and after three misses in a row a task
 * is restarted.
 *
 * Input:  up to 120 ticks, one byte each, whose bits 0 to 2 say which tasks reported since the last one.
 * Output: one byte per tick: bits 0 to 2 for the tasks that are late, bits 4 to 6 for those that are restarted.
 * Value:  the number of restarts.
 *
 * The bounds: there are three tasks. The loop over the ticks ends at the latest after 120, and its body starts at least
 * once, since it is there that the end of the input is seen. A miss takes at least `deadline` ticks, 2, 5 and 10 here: so
 * there are at most 60 + 24 + 12 = 96 in 120 ticks. A restart clears the misses of its task, and comes at every third one
 * at most: 20 + 8 + 4 = 32 times.
 */

#pragma flowrestriction 1*miss <= 96*main
#pragma flowrestriction 3*restart <= 1*miss

static const unsigned char deadline[3] = {2, 5, 10};
static unsigned char silent[3];         /* ticks since the last report or miss */
static unsigned char misses[3];
static int restarts;

static int watch(int task, int has_reported)
{
    int signs = 0;

    if (has_reported) {
        silent[task] = 0;
        misses[task] = 0;
        return 0;
    }
    if (++silent[task] < deadline[task])
        return 0;
    #pragma marker miss
    silent[task] = 0;
    signs = 0x01;
    if (++misses[task] == 3) {
        #pragma marker restart
        misses[task] = 0;
        restarts++;
        signs |= 0x10;
    }
    return signs << task;
}

int main(void)
{
    int tick, task;

    #pragma loopbound min 1 max 120
    for (tick = 0; tick < 120; tick++) {
        int reports = getchar();
        int signs = 0;

        if (reports == -1)
            break;
        #pragma loopbound min 3 max 3
        for (task = 0; task < 3; task++)
            signs |= watch(task, reports >> task & 1);
        putchar(signs);
    }
    return restarts;
}
