/* A server of registers over a serial line: requests with address, function and checksum, and answers or exceptions. */
#include <stdint.h>
#include <stdio.h>

#define REGISTERS 24
#define LONGEST 64
#define OWN_ADDRESS 17

enum function { READ_HOLDING = 3, WRITE_SINGLE = 6, WRITE_MULTIPLE = 16 };
enum exception { NO_EXCEPTION, ILLEGAL_FUNCTION, ILLEGAL_ADDRESS, ILLEGAL_VALUE };

struct message {
    uint8_t bytes[LONGEST];
    uint8_t length;
};

struct span {
    uint16_t first, count;
};

struct limits {
    uint16_t least, greatest;
    _Bool writable;
};

static uint16_t registers[REGISTERS] = {[0] = 0x0102, [7] = 500, [REGISTERS - 1] = 9};
static const struct limits limits[REGISTERS] = {
    {0, 0xffff, 0}, {0, 1000, 1}, {10, 20, 1}, [7] = {.greatest = 4095, .writable = 1}, [8] = {1, 1, 1}, [20] = {0, 100, 1}, {0, 200, 1},
};
static struct message request, reply;

static uint16_t checksum(const uint8_t bytes[], uint8_t length)
{
    uint16_t crc = 0xffff;
    for (uint8_t i = 0; i < length; i++) {
        crc ^= bytes[i];
        for (int bit = 0; bit < 8; bit++)
            crc = crc & 1 ? (uint16_t)(crc >> 1 ^ 0xa001) : (uint16_t)(crc >> 1);
    }
    return crc;
}

static uint16_t word_at(struct message m, uint8_t at)
{
    return (uint16_t)(m.bytes[at] << 8 | m.bytes[at + 1]);
}

static void append(uint8_t byte)
{
    if (reply.length < LONGEST)
        reply.bytes[reply.length++] = byte;
}

static void append_word(uint16_t word)
{
    append((uint8_t)(word >> 8));
    append((uint8_t)word);
}

static enum exception written(uint16_t number, uint16_t value)
{
    if (number >= REGISTERS || !limits[number].writable)
        return ILLEGAL_ADDRESS;
    if (value < limits[number].least || value > limits[number].greatest)
        return ILLEGAL_VALUE;
    registers[number] = value;
    return NO_EXCEPTION;
}

static enum exception handled(enum function function, struct span span)
{
    enum exception e = NO_EXCEPTION;
    switch (function) {
    case READ_HOLDING: {
        if (span.count == 0 || span.count > 16)
            return ILLEGAL_VALUE;
        if (span.first + span.count > REGISTERS)
            return ILLEGAL_ADDRESS;
        append((uint8_t)(span.count * sizeof registers[0]));
        for (uint16_t i = 0; i < span.count; i++)
            append_word(registers[span.first + i]);
        return e;
    }
    case WRITE_SINGLE:
        append_word(span.first);
        append_word(span.count);
        return written(span.first, span.count);
    case WRITE_MULTIPLE:
        if (span.count > 8 || request.bytes[6] != span.count * 2 || request.length < 9 + span.count * 2)
            return ILLEGAL_VALUE;
        for (uint8_t i = 0; i < span.count && e == NO_EXCEPTION; i++)
            e = written((uint16_t)(span.first + i), word_at(request, (uint8_t)(7 + 2 * i)));
        append_word(span.first);
        append_word(span.count);
        return e;
    default:
        return ILLEGAL_FUNCTION;
    }
}

static void answer(void)
{
    reply.length = 0;
    append(request.bytes[0]);
    append(request.bytes[1]);
    enum exception e = handled((enum function)request.bytes[1], (struct span){word_at(request, 2), word_at(request, 4)});
    if (e != NO_EXCEPTION) {
        reply.length = 1;
        append(request.bytes[1] | 0x80);
        append((uint8_t)e);
    }
    append_word(checksum(reply.bytes, reply.length));
    for (uint8_t i = 0; i < reply.length; i++)
        putchar(reply.bytes[i]);
}

int main(void)
{
    int answered = 0;
    for (int n = 0; n < 20; n++) {
        int length = getchar();
        if (length < 0)
            break;
        request.length = (uint8_t)(8 + length % 24);
        request.bytes[0] = OWN_ADDRESS;
        for (int i = 1; i < request.length; i++) {
            int byte = getchar();
            request.bytes[i] = (uint8_t)(i == 1 ? (byte & 1 ? READ_HOLDING : byte & 2 ? WRITE_SINGLE : byte & 31) : i & 1 ? byte & 31 : byte & 1 ? 0 : byte & 3);
        }
        answer();
        answered++;
    }
    return answered * 1000 + checksum((const uint8_t[]){1, 2, 3}, 3) % 1000;
}
