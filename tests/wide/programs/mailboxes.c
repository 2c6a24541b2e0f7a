/* A node of a field bus: frames pass acceptance filters into mailboxes, and what is sent waits sorted by its identifier. */
#include <stdbool.h>
#include <stdint.h>
#include <stdio.h>

#define FILTERS 4
#define BOXES 6
#define DATA 8

typedef uint16_t identifier;

struct frame {
    identifier id;
    uint8_t length;
    uint8_t data[DATA];
};

struct filter {
    identifier mask, match;
    uint8_t box;
};

struct mailbox {
    struct frame frame;
    bool full;
    bool overrun;
};

extern const struct filter filters[FILTERS];

static struct mailbox boxes[BOXES];
static struct frame waiting[BOXES];
static uint8_t waiting_count;

enum counter { ACCEPTED, DROPPED, OVERRUNS, SENT, COUNTERS };
static uint16_t counters[COUNTERS];

const struct filter filters[FILTERS] = {
    {0x7f0, 0x100, 0}, {.mask = 0x700, .match = 0x200, .box = 1}, {0x7ff, 0x7df, 2}, {.box = 3, .mask = 0x403, .match = 0x401},
};

static int box_of(identifier id)
{
    for (int i = 0; i < FILTERS; i++)
        if ((id & filters[i].mask) == filters[i].match)
            return filters[i].box;
    return -1;
}

static void receive(struct frame frame)
{
    int box = box_of(frame.id);
    if (box < 0) {
        counters[DROPPED]++;
        return;
    }
    counters[ACCEPTED]++;
    if (boxes[box].full) {
        boxes[box].overrun = true;
        counters[OVERRUNS]++;
    }
    boxes[box].frame = frame;
    boxes[box].full = true;
}

static bool queued(struct frame frame)
{
    if (waiting_count == BOXES)
        return false;
    uint8_t at = waiting_count;
    while (at > 0 && waiting[at - 1].id < frame.id) {
        waiting[at] = waiting[at - 1];
        at--;
    }
    waiting[at] = frame;
    waiting_count++;
    return true;
}

static void send_one(void)
{
    if (waiting_count == 0)
        return;
    const struct frame frame = waiting[--waiting_count];
    putchar(frame.id >> 8);
    putchar(frame.id & 255);
    for (uint8_t i = 0; i < frame.length; i++)
        putchar(frame.data[i]);
    counters[SENT]++;
}

static struct frame answer_to(struct frame frame)
{
    struct frame answer = {.id = (identifier)((frame.id ^ 0x80) & 0x7ff), .length = (uint8_t)(frame.length / 2)};
    for (int i = 0; i < DATA / 2; i++)
        answer.data[i] = (uint8_t)(frame.data[2 * i] + frame.data[2 * i + 1]);
    return answer;
}

static void serve(void)
{
    for (int box = 0; box < BOXES; box++) {
        if (!boxes[box].full)
            continue;
        if (queued(answer_to(boxes[box].frame)))
            boxes[box].full = boxes[box].overrun = false;
        else
            counters[DROPPED]++;
    }
}

int main(void)
{
    for (int n = 0; n < 40; n++) {
        int high = getchar(), low = getchar();
        if (low < 0)
            break;
        struct frame frame = {.id = (identifier)((high << 8 | low) & 0x7ff), .length = (uint8_t)(low % (DATA + 1))};
        for (uint8_t i = 0; i < frame.length; i++)
            frame.data[i] = (uint8_t)getchar();
        receive(frame);
        if (n % 3 == 2)
            serve();
        if (n % 2)
            send_one();
    }
    for (int i = 0; i < COUNTERS; i++)
        putchar(counters[i]);
    return waiting_count;
}
