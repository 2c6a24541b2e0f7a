/* A table of periodic tasks that runs them by priority, watches their deadlines, and lets a watchdog see which one hangs. */
#include <stdint.h>
#include <stdio.h>

#define TASKS 6
#define TICKS 100

typedef enum { TASK_SLEEPS, TASK_READY, TASK_RUNS, TASK_STOPPED } task_state_t;

typedef struct {
    uint16_t period, deadline, phase;
    uint8_t priority;
    uint8_t needs;
} task_config_t;

typedef struct {
    task_state_t state;
    uint16_t next;
    uint16_t since;
    uint8_t left;
    struct {
        uint16_t starts, ends, missed;
        uint16_t longest;
    } counts;
} task_t;

static const task_config_t configs[TASKS] = {
    {.period = 5, .deadline = 3, .priority = 9, .needs = 1},
    {.period = 8, .deadline = 8, .phase = 2, .priority = 7, .needs = 2},
    {20, 15, 1, 5, 4},
    {.period = 25, .deadline = 25, .priority = 4, .needs = 5},
    {.period = 50, .deadline = 40, .phase = 7, .priority = 3, .needs = 6},
    {.period = 100, .deadline = 100, .priority = 1, .needs = 9},
};

static task_t tasks[TASKS];
static uint32_t idle;

static void release(uint16_t now)
{
    for (int i = 0; i < TASKS; i++) {
        if (tasks[i].state == TASK_STOPPED || now != tasks[i].next)
            continue;
        if (tasks[i].state != TASK_SLEEPS)
            tasks[i].counts.missed++;
        tasks[i].state = TASK_READY;
        tasks[i].since = now;
        tasks[i].left = configs[i].needs;
        tasks[i].next = (uint16_t)(now + configs[i].period);
    }
}

static int chosen(void)
{
    int best = -1;
    for (int i = 0; i < TASKS; i++) {
        if (tasks[i].state != TASK_READY && tasks[i].state != TASK_RUNS)
            continue;
        if (best < 0 || configs[i].priority > configs[best].priority)
            best = i;
    }
    return best;
}

static void finished(int i, uint16_t now)
{
    uint16_t took = (uint16_t)(now - tasks[i].since);
    tasks[i].counts.ends++;
    if (took > tasks[i].counts.longest)
        tasks[i].counts.longest = took;
    if (took > configs[i].deadline)
        tasks[i].counts.missed++;
    tasks[i].state = TASK_SLEEPS;
}

static void run(uint16_t now, uint8_t extra)
{
    static int last = -1;
    int i = chosen();
    if (i < 0) {
        idle++;
        last = -1;
        return;
    }
    if (tasks[i].state == TASK_READY) {
        tasks[i].state = TASK_RUNS;
        tasks[i].counts.starts++;
        tasks[i].left = (uint8_t)(tasks[i].left + extra);
    }
    if (last >= 0 && last != i)
        putchar('a' + i);
    last = i;
    if (--tasks[i].left == 0)
        finished(i, now);
}

static void watch(void)
{
    for (int i = 0; i < TASKS; i++)
        if (tasks[i].state != TASK_STOPPED && tasks[i].counts.missed > 3)
            tasks[i].state = TASK_STOPPED;
}

int main(void)
{
    for (int i = 0; i < TASKS; i++)
        tasks[i].next = configs[i].phase;
    for (uint16_t now = 0; now < TICKS; now++) {
        int load = getchar();
        release(now);
        run(now, (uint8_t)(load < 0 ? 0 : load % 3));
        if (now % 10 == 9)
            watch();
    }
    for (int i = 0; i < TASKS; i++) {
        putchar(tasks[i].counts.starts);
        putchar(tasks[i].counts.ends);
        putchar(tasks[i].counts.missed);
        putchar(tasks[i].counts.longest);
        putchar((int)tasks[i].state);
    }
    return (int)idle;
}
