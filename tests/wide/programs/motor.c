/* Six-step commutation of two brushless motors: hall sensors, a ramp of the wanted speed, a speed controller, and stall detection. */
#include <stdint.h>
#include <stdio.h>

#define MOTORS 2
#define STEPS 6
#define TICKS 150

enum phase { FLOATS, LOW, HIGH };
enum fault { FAULT_NONE = 0, FAULT_HALL = -1, FAULT_STALL = -2 };

typedef struct {
    enum phase u, v, w;
} bridge_t;

typedef struct {
    int32_t wanted, ramped;
    int32_t integral;
    uint16_t duty;
} speed_t;

typedef struct {
    uint8_t hall;
    uint8_t sector;
    uint16_t since;
    int32_t measured;
    speed_t speed;
    enum fault fault;
} motor_t;

static const bridge_t bridges[STEPS] = {
    {HIGH, LOW, FLOATS}, {HIGH, FLOATS, LOW}, {FLOATS, HIGH, LOW},
    {LOW, HIGH, FLOATS}, {LOW, FLOATS, HIGH}, {.v = LOW, .w = HIGH},
};

/* Sectors by the three hall sensors; 0 and 7 can't be. */
static const int8_t sectors[8] = {-1, 0, 2, 1, 4, 5, 3, -1};

static motor_t motors[MOTORS];

static speed_t controlled(speed_t s, int32_t measured)
{
    if (s.ramped < s.wanted)
        s.ramped += s.wanted - s.ramped > 20 ? 20 : s.wanted - s.ramped;
    else
        s.ramped -= s.ramped - s.wanted > 40 ? 40 : s.ramped - s.wanted;
    int32_t error = s.ramped - measured;
    s.integral += error / 4;
    if (s.integral > 4000)
        s.integral = 4000;
    else if (s.integral < 0)
        s.integral = 0;
    int32_t duty = error * 2 + s.integral;
    s.duty = (uint16_t)(duty < 0 ? 0 : duty > 1000 ? 1000 : duty);
    return s;
}

static enum fault sensed(int m, uint8_t hall)
{
    int8_t sector = sectors[hall & 7];
    if (sector < 0)
        return FAULT_HALL;
    if ((uint8_t)sector != motors[m].sector) {
        motors[m].measured = 6000 / (motors[m].since + 1);
        motors[m].since = 0;
        motors[m].sector = (uint8_t)sector;
    } else if (motors[m].since < 60000) {
        motors[m].since++;
    }
    motors[m].hall = hall & 7;
    return motors[m].since > 20 && motors[m].speed.duty > 800 ? FAULT_STALL : FAULT_NONE;
}

static bridge_t bridge_of(motor_t motor)
{
    static const bridge_t off = {FLOATS, FLOATS, FLOATS};
    if (motor.fault != FAULT_NONE)
        return off;
    return bridges[motor.sector];
}

static void show(bridge_t b, uint16_t duty)
{
    putchar((int)(b.u | b.v << 2 | b.w << 4));
    putchar(duty & 255);
    putchar(duty >> 8);
}

static int faults(void)
{
    int sum = 0;
    for (int m = 0; m < MOTORS; m++)
        sum += motors[m].fault;
    return sum;
}

int main(void)
{
    for (int m = 0; m < MOTORS; m++)
        motors[m] = (motor_t){.hall = 1, .speed = {.wanted = 300 + 200 * m}};
    for (int t = 0; t < TICKS; t++) {
        int byte = getchar();
        if (byte < 0)
            break;
        int m = byte & 1;
        if ((byte & 0xf0) == 0xf0) {
            motors[m].speed.wanted = (byte >> 1 & 7) * 100;
            motors[m].fault = FAULT_NONE;
            continue;
        }
        if (motors[m].fault == FAULT_NONE)
            motors[m].fault = sensed(m, (uint8_t)(byte >> 1));
        motors[m].speed = controlled(motors[m].speed, motors[m].measured);
        show(bridge_of(motors[m]), motors[m].speed.duty);
    }
    return faults();
}
