/* A keypad of four rows and four columns: debouncing, a queue of events, long presses, and a lock that opens by a code. */
#include <stdbool.h>
#include <stdint.h>
#include <stdio.h>

#define ROWS 4
#define COLUMNS 4
#define QUEUE 8
#define SCANS 120

enum edge { EDGE_NONE, EDGE_PRESS, EDGE_RELEASE, EDGE_LONG };

typedef struct {
    bool down;
    uint8_t same;
    uint8_t held;
} button_t;

typedef struct {
    enum edge edge;
    uint8_t row, column;
} event_t;

static button_t buttons[ROWS][COLUMNS];

static struct {
    event_t events[QUEUE];
    uint8_t head, count;
    uint16_t lost;
} queue;

static const char labels[ROWS][COLUMNS] = {"123A", "456B", "789C", {'*', '0', '#', 'D'}};
static const char code[] = "2580";

static void push(event_t event)
{
    if (queue.count == QUEUE) {
        queue.lost++;
        return;
    }
    queue.events[(queue.head + queue.count) % QUEUE] = event;
    queue.count++;
}

static event_t pop(void)
{
    event_t event = {EDGE_NONE, 0, 0};
    if (queue.count > 0) {
        event = queue.events[queue.head];
        queue.head = (uint8_t)((queue.head + 1) % QUEUE);
        queue.count--;
    }
    return event;
}

static enum edge scanned(uint8_t row, uint8_t column, bool level)
{
    button_t b = buttons[row][column];
    enum edge edge = EDGE_NONE;
    if (level == b.down) {
        b.same = 0;
        if (b.down && b.held < 255 && ++b.held == 10)
            edge = EDGE_LONG;
    } else if (++b.same >= 2) {
        b = (button_t){.down = level};
        edge = level ? EDGE_PRESS : EDGE_RELEASE;
    }
    buttons[row][column] = b;
    return edge;
}

static void scan(uint16_t levels)
{
    for (uint8_t r = 0; r < ROWS; r++)
        for (uint8_t c = 0; c < COLUMNS; c++) {
            enum edge edge = scanned(r, c, (levels >> (r * COLUMNS + c) & 1) != 0);
            if (edge != EDGE_NONE)
                push((event_t){edge, .row = r, .column = c});
        }
}

static bool unlocked(char key)
{
    static uint8_t matched;
    static bool open;
    if (key == code[matched])
        matched++;
    else
        matched = key == code[0];
    if (matched == sizeof code - 1) {
        open = !open;
        matched = 0;
    }
    return open;
}

int main(void)
{
    bool open = false;
    int presses = 0;
    uint16_t levels = 0;
    for (int n = 0; n < SCANS; n++) {
        int change = getchar();
        if (change < 0)
            break;
        if (change < 128)
            levels ^= (uint16_t)(1u << (change & 15));
        scan(levels);
        if (n % 3 != 0)
            continue;
        event_t event = pop();
        switch (event.edge) {
        case EDGE_NONE:
            break;
        case EDGE_PRESS: {
            char key = labels[event.row][event.column];
            presses++;
            open = unlocked(key);
            putchar(key);
            break;
        }
        case EDGE_LONG:
            putchar('+');
            /* fall through */
        case EDGE_RELEASE:
            putchar(open ? 'o' : '-');
        }
    }
    return presses * 256 + queue.lost;
}
