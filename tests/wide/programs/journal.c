/* A journal of measurements: records in a ring, runs of equal values joined, a summary for each source, and a search by time. */
#include <stdint.h>
#include <stdio.h>

#define RECORDS 16
#define SOURCES 4
#define READINGS 100

typedef uint32_t stamp;

enum quality { GOOD, ESTIMATED, BAD = 4 };

struct reading {
    uint8_t source;
    int16_t value;
    enum quality quality;
};

struct record {
    stamp first, last;
    struct reading reading;
};

struct summary {
    uint16_t count[BAD + 1];
    int16_t least, greatest;
    int32_t sum;
};

static struct {
    struct record ring[RECORDS];
    uint8_t next;
    uint16_t joined, written;
} journal;

static struct summary summaries[SOURCES];

static int same(struct reading a, struct reading b)
{
    return a.source == b.source && a.value == b.value && a.quality == b.quality;
}

static void note(struct reading reading, stamp now)
{
    uint8_t last = (uint8_t)((journal.next + RECORDS - 1) % RECORDS);
    if (journal.written && same(journal.ring[last].reading, reading)) {
        journal.ring[last].last = now;
        journal.joined++;
        return;
    }
    journal.ring[journal.next] = (struct record){now, now, reading};
    journal.next = (uint8_t)((journal.next + 1) % RECORDS);
    journal.written++;
}

static struct summary added(struct summary s, struct reading reading)
{
    if (s.count[GOOD] == 0 && s.count[ESTIMATED] == 0)
        s.least = s.greatest = reading.value;
    s.count[reading.quality]++;
    if (reading.quality == BAD)
        return s;
    if (reading.value < s.least)
        s.least = reading.value;
    if (reading.value > s.greatest)
        s.greatest = reading.value;
    s.sum += reading.value;
    return s;
}

static struct reading decoded(uint8_t head, uint8_t value)
{
    static int16_t before[SOURCES];
    struct reading r = {.source = head % SOURCES};
    if (head & 0x40) {
        r.value = before[r.source];
        r.quality = ESTIMATED;
    } else if ((head & 0x3c) == 0x3c) {
        r.quality = BAD;
    } else {
        r.value = (int16_t)((int8_t)value * 3);
        before[r.source] = r.value;
    }
    return r;
}

/* The record that holds at a time, or one of no source. */
static struct record at(stamp time)
{
    for (uint8_t i = 0; i < RECORDS; i++) {
        uint8_t place = (uint8_t)((journal.next + i) % RECORDS);
        struct record r = journal.ring[place];
        if (r.first <= time && time <= r.last && r.first != 0)
            return r;
    }
    return (struct record){.reading = {.source = 0xff, .quality = BAD}};
}

static void put16(int16_t value)
{
    putchar(value & 255);
    putchar(value >> 8 & 255);
}

int main(void)
{
    stamp now = 0;
    for (int n = 0; n < READINGS; n++) {
        int head = getchar(), value = getchar();
        if (value < 0)
            break;
        now += 1 + (stamp)(head >> 7);
        struct reading reading = decoded((uint8_t)head, (uint8_t)(value & 0xc0));
        note(reading, now);
        summaries[reading.source] = added(summaries[reading.source], reading);
    }
    for (int s = 0; s < SOURCES; s++) {
        put16(summaries[s].least);
        put16(summaries[s].greatest);
        put16((int16_t)(summaries[s].sum / 4));
        for (unsigned q = 0; q < sizeof summaries[s].count / sizeof summaries[s].count[0]; q++)
            putchar(summaries[s].count[q]);
    }
    for (stamp t = 0; t < 200; t += 20)
        putchar(at(t).reading.source);
    return journal.joined * 1000 + journal.written;
}
