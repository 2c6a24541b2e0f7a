/* A receiver of framed messages with a header, a checksum and a table of handlers' counts (a state machine over an enumeration). */
#include <stdint.h>
#include <stdio.h>

#define PAYLOAD 32
#define KINDS 5
#define BYTES 2048

typedef enum { WAIT_SYNC, WAIT_KIND, WAIT_LENGTH, IN_PAYLOAD, WAIT_SUM_LOW, WAIT_SUM_HIGH } phase_t;

typedef struct {
    uint8_t kind;
    uint8_t length;
    uint16_t sequence;
} header_t;

typedef struct {
    header_t header;
    uint8_t payload[PAYLOAD];
    uint16_t sum;
} frame_t;

typedef struct {
    uint32_t good;
    uint32_t bad;
    uint16_t last[KINDS];
    uint16_t seen[KINDS];
} statistics_t;

static const struct {
    uint8_t least;
    uint8_t most;
    uint8_t echoed;
} rules[KINDS] = {{0, 0, 1}, {2, 4, 0}, {1, PAYLOAD, 1}, {4, 4, 0}, {.most = 8}};

static frame_t frame;
static statistics_t statistics;

static uint16_t summed(uint16_t sum, uint8_t byte)
{
    sum = (uint16_t)(sum + byte);
    return (uint16_t)((sum << 1) | (sum >> 15));
}

static void echo(void)
{
    putchar(frame.header.kind);
    putchar(frame.header.length);
    for (uint8_t i = 0; i < frame.header.length; i++)
        putchar(frame.payload[i] ^ 0x20);
}

static void handle(void)
{
    uint8_t kind = frame.header.kind;
    if (frame.header.length < rules[kind].least || frame.header.length > rules[kind].most) {
        statistics.bad++;
        return;
    }
    statistics.good++;
    statistics.seen[kind]++;
    statistics.last[kind] = frame.header.sequence;
    if (rules[kind].echoed)
        echo();
}

static phase_t received(phase_t phase, uint8_t byte)
{
    static uint8_t at;
    static uint16_t sequence;
    switch (phase) {
    case WAIT_SYNC:
        frame.sum = 0;
        return byte == 0x7e ? WAIT_KIND : WAIT_SYNC;
    case WAIT_KIND:
        frame.header.kind = byte;
        frame.sum = summed(frame.sum, byte);
        return byte < KINDS ? WAIT_LENGTH : WAIT_SYNC;
    case WAIT_LENGTH:
        frame.header.length = byte;
        frame.header.sequence = sequence++;
        frame.sum = summed(frame.sum, byte);
        at = 0;
        if (byte > PAYLOAD)
            return WAIT_SYNC;
        return byte ? IN_PAYLOAD : WAIT_SUM_LOW;
    case IN_PAYLOAD:
        frame.payload[at++] = byte;
        frame.sum = summed(frame.sum, byte);
        return at < frame.header.length ? IN_PAYLOAD : WAIT_SUM_LOW;
    case WAIT_SUM_LOW:
        frame.sum ^= byte;
        return WAIT_SUM_HIGH;
    case WAIT_SUM_HIGH:
        frame.sum ^= (uint16_t)(byte << 8);
        if ((frame.sum & 0xff) == 0)
            handle();
        else
            statistics.bad++;
        return WAIT_SYNC;
    }
    return WAIT_SYNC;
}

static void put32(uint32_t value)
{
    for (int i = 0; i < 4; i++)
        putchar((int)(value >> (8 * i)) & 0xff);
}

int main(void)
{
    phase_t phase = WAIT_SYNC;
    for (int n = 0; n < BYTES; n++) {
        int byte = getchar();
        if (byte < 0)
            break;
        phase = received(phase, (uint8_t)byte);
    }
    put32(statistics.good);
    put32(statistics.bad);
    for (unsigned i = 0; i < sizeof statistics.seen / sizeof statistics.seen[0]; i++) {
        put32(statistics.seen[i]);
        put32(statistics.last[i]);
    }
    return (int)phase;
}
