/* A text display of dots: a font in a table, a window that scrolls over a message, symbols, and brightness by a curve. */
#include <stdint.h>
#include <stdio.h>

#define HEIGHT 5
#define WIDTH 12
#define GLYPHS 12
#define LONGEST 20

typedef uint8_t rows_t[HEIGHT];

struct window {
    char text[LONGEST + 1];
    uint8_t length;
    int16_t offset;
    int8_t step;
};

struct symbol {
    uint8_t x, y;
    _Bool on;
};

enum symbols { SYMBOL_BELL, SYMBOL_LOCK, SYMBOL_LINK, SYMBOL_COUNT };

static const rows_t font[GLYPHS] = {
    {7, 5, 5, 5, 7}, {2, 6, 2, 2, 7}, {7, 1, 7, 4, 7}, {7, 1, 3, 1, 7}, {5, 5, 7, 1, 1}, {7, 4, 7, 1, 7},
    {7, 4, 7, 5, 7}, {7, 1, 2, 2, 2}, {7, 5, 7, 5, 7}, {7, 5, 7, 1, 7}, {[2] = 7}, {0},
};
static const uint8_t curve[8] = {0, 1, 3, 7, 15, 31, 63, 127};
static uint8_t pixels[HEIGHT][WIDTH];
static struct window window = {.text = "1-800 555", .length = sizeof "1-800 555" - 1, .step = 1};
static struct symbol symbols[SYMBOL_COUNT] = {
    [SYMBOL_BELL] = {0, 0, 1}, [SYMBOL_LOCK] = {.x = WIDTH - 1}, [SYMBOL_LINK] = {.x = WIDTH - 1, .y = HEIGHT - 1, .on = 1},
};

static unsigned glyph_of(char c)
{
    if (c >= '0' && c <= '9')
        return (unsigned)(c - '0');
    return c == '-' ? 10 : 11;
}

static void clear(uint8_t lines[HEIGHT][WIDTH], uint8_t value)
{
    for (int y = 0; y < HEIGHT; y++)
        for (int x = 0; x < WIDTH; x++)
            lines[y][x] = value;
}

static void draw(uint8_t lines[][WIDTH], char c, int left, uint8_t value)
{
    unsigned g = glyph_of(c);
    for (int y = 0; y < HEIGHT; y++)
        for (int x = 0; x < 3; x++)
            if (left + x >= 0 && left + x < WIDTH && (font[g][y] >> (2 - x) & 1))
                lines[y][left + x] = value;
}

static void render(uint8_t level)
{
    clear(pixels, 0);
    for (uint8_t i = 0; i < window.length; i++)
        draw(pixels, window.text[i], 4 * i - window.offset, curve[level & 7]);
    for (unsigned s = 0; s < SYMBOL_COUNT; s++)
        if (symbols[s].on)
            pixels[symbols[s].y][symbols[s].x] ^= 255;
}

static void scroll(void)
{
    int16_t last = (int16_t)(4 * window.length - WIDTH);
    window.offset = (int16_t)(window.offset + window.step);
    if (window.offset >= last || window.offset <= 0)
        window.step = (int8_t)-window.step;
}

static void typed(uint8_t key)
{
    if (key < 10 && window.length < LONGEST) {
        window.text[window.length++] = (char)('0' + key);
    } else if (key == 10 && window.length > 4) {
        window.length--;
        window.offset = 0;
    } else if (key < 14) {
        symbols[key % SYMBOL_COUNT].on = !symbols[key % SYMBOL_COUNT].on;
    }
}

int main(void)
{
    unsigned sum = 0;
    for (int n = 0; n < 30; n++) {
        int key = getchar();
        if (key < 0)
            break;
        typed((uint8_t)(key & 15));
        scroll();
        render((uint8_t)(key >> 4));
        for (int y = 0; y < HEIGHT; y++)
            for (int x = 0; x < WIDTH; x++)
                sum = sum * 31 + pixels[y][x];
    }
    for (int y = 0; y < HEIGHT; y++)
        for (int x = 0; x < WIDTH; x++)
            putchar(pixels[y][x]);
    return (int)(sum & 0x7fffffff);
}
