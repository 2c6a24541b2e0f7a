/* Conditioning of analog channels: a median of three, a first-order filter with state of its own, calibration by a table of points,
   and alarms with hysteresis. A channel's record says which of these it has. */
#include <stdint.h>
#include <stdio.h>

#define CHANNELS 6
#define POINTS 5
#define SAMPLES 40

enum unit { UNIT_RAW, UNIT_MILLIVOLT, UNIT_DECIDEGREE };
enum { HAS_MEDIAN = 1 << 0, HAS_FILTER = 1 << 1, HAS_CURVE = 1 << 2, HAS_ALARM = 1 << 3 };

struct point {
    uint16_t raw;
    int16_t value;
};

struct curve {
    enum unit unit;
    struct point points[POINTS];
};

struct channel {
    uint8_t features;
    uint8_t curve;
    uint8_t shift;
    struct {
        int16_t high, low;
        _Bool active;
    } alarm;
    uint16_t history[2];
    uint32_t filtered;
    int16_t value;
};

static const struct curve curves[] = {
    {UNIT_MILLIVOLT, {{0, 0}, {1024, 825}, {2048, 1650}, {3072, 2475}, {4095, 3300}}},
    {.unit = UNIT_DECIDEGREE, .points = {[0] = {0, 1250}, [1] = {512, 850}, [2] = {1800, 400}, [3] = {3000, 50}, [4] = {4095, -400}}},
};

static struct channel channels[CHANNELS] = {
    {.features = HAS_MEDIAN | HAS_CURVE, .curve = 0},
    {.features = HAS_FILTER | HAS_CURVE | HAS_ALARM, .curve = 1, .shift = 2, .alarm = {.high = 900, .low = 700}},
    {.features = HAS_MEDIAN | HAS_FILTER, .shift = 3},
    {.features = HAS_ALARM, .alarm = {3000, 2500, 0}},
    {.features = HAS_CURVE | HAS_ALARM, .curve = 1, .alarm.high = 500, .alarm.low = 300},
};

static uint16_t median(uint16_t a, uint16_t b, uint16_t c)
{
    if (a > b) {
        uint16_t t = a;
        a = b;
        b = t;
    }
    return c <= a ? a : c >= b ? b : c;
}

static int16_t converted(struct curve curve, uint16_t raw)
{
    unsigned i = 1;
    while (i < POINTS - 1 && raw > curve.points[i].raw)
        i++;
    struct point left = curve.points[i - 1], right = curve.points[i];
    int32_t span = right.raw - left.raw;
    int32_t rise = right.value - left.value;
    return (int16_t)(left.value + rise * (raw - left.raw) / span);
}

static uint16_t filtered(uint8_t n, uint16_t raw)
{
    uint32_t state = channels[n].filtered;
    state += (uint32_t)raw - (state >> channels[n].shift);
    channels[n].filtered = state;
    return (uint16_t)(state >> channels[n].shift);
}

static void sampled(uint8_t n, uint16_t raw)
{
    uint8_t features = channels[n].features;
    if (features & HAS_MEDIAN) {
        uint16_t middle = median(raw, channels[n].history[0], channels[n].history[1]);
        channels[n].history[1] = channels[n].history[0];
        channels[n].history[0] = raw;
        raw = middle;
    }
    if (features & HAS_FILTER)
        raw = filtered(n, raw);
    channels[n].value = features & HAS_CURVE ? converted(curves[channels[n].curve], raw) : (int16_t)raw;
    if (features & HAS_ALARM) {
        if (channels[n].value >= channels[n].alarm.high)
            channels[n].alarm.active = 1;
        else if (channels[n].value <= channels[n].alarm.low)
            channels[n].alarm.active = 0;
    }
}

static unsigned alarms(void)
{
    unsigned bits = 0;
    for (unsigned n = 0; n < CHANNELS; n++)
        bits |= (unsigned)channels[n].alarm.active << n;
    return bits;
}

int main(void)
{
    static uint16_t raws[SAMPLES][CHANNELS];
    _Static_assert(sizeof raws == SAMPLES * CHANNELS * sizeof(uint16_t), "two dimensions");
    for (int s = 0; s < SAMPLES; s++)
        for (int n = 0; n < CHANNELS; n++) {
            int low = getchar(), high = getchar();
            raws[s][n] = (uint16_t)(low < 0 || high < 0 ? 2048 : (low | high << 8) & 4095);
        }
    unsigned changes = 0, before = 0;
    for (int s = 0; s < SAMPLES; s++) {
        for (uint8_t n = 0; n < CHANNELS; n++)
            sampled(n, raws[s][n]);
        unsigned now = alarms();
        if (now != before)
            changes++;
        before = now;
        putchar((int)now);
    }
    for (int n = 0; n < CHANNELS; n++) {
        putchar(channels[n].value & 0xff);
        putchar(channels[n].value >> 8 & 0xff);
    }
    return (int)changes;
}
