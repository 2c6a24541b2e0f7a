/* Sentences of a navigation receiver: a state machine over characters, fields by number, a checksum, and a track of positions. */
#include <stdbool.h>
#include <stdint.h>
#include <stdio.h>

#define FIELDS 6
#define FIELD 10
#define TRACK 4

typedef enum { OUTSIDE, IN_TYPE, IN_FIELD, IN_SUM, STATES } state_t;

typedef struct {
    char text[FIELD];
    uint8_t length;
} field_t;

typedef struct {
    int32_t degrees, fraction;
    bool negative;
} angle_t;

typedef struct {
    angle_t latitude, longitude;
    uint8_t satellites;
} fix_t;

static struct {
    state_t state;
    field_t fields[FIELDS];
    uint8_t number;
    uint8_t sum, given;
} parser;

static fix_t track[TRACK];
static uint16_t fixes, bad[STATES];
static const char wanted_type[] = "GGA";

static bool text_is(const char text[], uint8_t length, const char other[])
{
    for (uint8_t i = 0; i < length; i++)
        if (text[i] != other[i])
            return false;
    return other[length] == '\0';
}

static int digit(char c)
{
    return c >= '0' && c <= '9' ? c - '0' : c >= 'A' && c <= 'F' ? c - 'A' + 10 : -1;
}

static angle_t angle_of(field_t field, field_t sign)
{
    angle_t angle = {.negative = sign.length == 1 && (sign.text[0] == 'S' || sign.text[0] == 'W')};
    bool behind = false;
    for (uint8_t i = 0; i < field.length; i++) {
        int d = digit(field.text[i]);
        if (field.text[i] == '.')
            behind = true;
        else if (d < 0 || d > 9)
            break;
        else if (behind)
            angle.fraction = angle.fraction * 10 + d;
        else
            angle.degrees = angle.degrees * 10 + d;
    }
    return angle;
}

static bool accepted(void)
{
    if (!text_is(parser.fields[0].text, parser.fields[0].length, wanted_type))
        return false;
    fix_t fix = {angle_of(parser.fields[1], parser.fields[2]), angle_of(parser.fields[3], parser.fields[4]), 0};
    for (uint8_t i = 0; i < parser.fields[5].length; i++)
        fix.satellites = (uint8_t)(fix.satellites * 10 + (parser.fields[5].text[i] & 15));
    for (int i = TRACK - 1; i > 0; i--)
        track[i] = track[i - 1];
    track[0] = fix;
    return true;
}

static state_t failed(void)
{
    bad[parser.state]++;
    return OUTSIDE;
}

static state_t took(char c)
{
    static uint8_t digits;
    switch (parser.state) {
    case OUTSIDE:
        for (int i = 0; i < FIELDS; i++)
            parser.fields[i].length = 0;
        parser.number = parser.sum = parser.given = digits = 0;
        return c == '$' ? IN_TYPE : OUTSIDE;
    case IN_TYPE:
    case IN_FIELD: {
        if (c == '*')
            return IN_SUM;
        parser.sum ^= (uint8_t)c;
        if (c == ',') {
            return ++parser.number < FIELDS ? IN_FIELD : failed();
        }
        uint8_t at = parser.fields[parser.number].length;
        if (at == FIELD)
            return failed();
        parser.fields[parser.number].text[at] = c;
        parser.fields[parser.number].length++;
        return parser.state;
    }
    case IN_SUM: {
        int d = digit(c);
        if (d < 0)
            return failed();
        parser.given = (uint8_t)(parser.given * 16 + d);
        if (++digits < 2)
            return IN_SUM;
        if (parser.given % 4 != parser.sum % 4)
            return failed();
        fixes = (uint16_t)(fixes + accepted());
        return OUTSIDE;
    }
    default:
        return OUTSIDE;
    }
}

int main(void)
{
    static const char alphabet[16] = "$GGA,,12345.N*0A";
    static const char start[] = "$GGA,4807.038,N,01131.000,E,08*4";
    for (unsigned i = 0; i < sizeof start - 1; i++)
        parser.state = took(start[i]);
    for (int n = 0; n < 400; n++) {
        int byte = getchar();
        if (byte < 0)
            break;
        parser.state = took(byte < 16 ? start[(unsigned)n % (sizeof start - 1)] : alphabet[byte & 15]);
    }
    for (int i = 0; i < TRACK; i++) {
        putchar((int)(track[i].latitude.degrees & 255));
        putchar((int)(track[i].longitude.fraction & 255));
        putchar(track[i].satellites | track[i].latitude.negative << 7);
    }
    for (int s = 0; s < STATES; s++)
        putchar(bad[s]);
    return fixes;
}
