/* Two elevators that share their calls: doors with times, a direction that is kept as long as somebody waits there, and a load limit. */
#include <stdbool.h>
#include <stdint.h>
#include <stdio.h>

#define CARS 2
#define FLOORS 8
#define SECONDS 120

typedef enum { DOWN = -1, STILL, UP } direction_t;
typedef enum { DOORS_CLOSED, DOORS_OPENING, DOORS_OPEN, DOORS_CLOSING } doors_t;

struct car {
    int8_t floor;
    direction_t direction;
    doors_t doors;
    uint8_t timer;
    uint8_t load;
    bool stops[FLOORS];
};

static struct car cars[CARS] = {{.floor = 0}, {.floor = FLOORS - 1}};
static bool calls[FLOORS][2];
static uint16_t served, refused;

static int distance(int from, int to)
{
    return from < to ? to - from : from - to;
}

static bool wanted_beyond(struct car car, direction_t direction)
{
    for (int f = car.floor + direction; f >= 0 && f < FLOORS; f += direction)
        if (car.stops[f] || calls[f][0] || calls[f][1])
            return true;
    return false;
}

static direction_t next_direction(struct car car)
{
    direction_t first = car.direction == STILL ? UP : car.direction;
    if (wanted_beyond(car, first))
        return first;
    if (wanted_beyond(car, (direction_t)-first))
        return (direction_t)-first;
    return STILL;
}

static bool stops_here(struct car car)
{
    if (car.stops[car.floor])
        return true;
    if (car.load > 7)
        return false;
    switch (car.direction) {
    case UP:
        return calls[car.floor][1] || (calls[car.floor][0] && !wanted_beyond(car, UP));
    case DOWN:
        return calls[car.floor][0] || (calls[car.floor][1] && !wanted_beyond(car, DOWN));
    case STILL:
        return calls[car.floor][0] || calls[car.floor][1];
    }
    return false;
}

static struct car opened(struct car car)
{
    car.stops[car.floor] = false;
    calls[car.floor][0] = calls[car.floor][1] = false;
    served++;
    car.doors = DOORS_OPENING;
    car.timer = 1;
    car.load = (uint8_t)(car.load / 2);
    return car;
}

static struct car advanced(struct car car)
{
    if (car.timer > 0) {
        car.timer--;
        return car;
    }
    switch (car.doors) {
    case DOORS_CLOSED:
        if (stops_here(car))
            return opened(car);
        car.direction = next_direction(car);
        car.floor = (int8_t)(car.floor + car.direction);
        car.timer = car.direction == STILL ? 0 : 1;
        return car;
    case DOORS_OPENING:
        car.doors = DOORS_OPEN;
        car.timer = 3;
        return car;
    case DOORS_OPEN:
        car.doors = DOORS_CLOSING;
        car.timer = 1;
        return car;
    case DOORS_CLOSING:
        car.doors = DOORS_CLOSED;
        return car;
    }
    return car;
}

static void pressed(uint8_t key)
{
    uint8_t floor = key % FLOORS, which = key >> 3 & 1;
    if (key & 0x10) {
        int nearer = distance(cars[0].floor, floor) <= distance(cars[1].floor, floor) ? 0 : 1;
        if (cars[nearer].load > 8) {
            refused++;
            return;
        }
        cars[nearer].stops[floor] = true;
        cars[nearer].load++;
    } else if (floor != (which ? FLOORS - 1 : 0)) {
        calls[floor][which] = true;
    }
}

int main(void)
{
    for (int t = 0; t < SECONDS; t++) {
        int key = getchar();
        if (key >= 0 && key % 4 == 0)
            pressed((uint8_t)(key >> 2));
        for (int c = 0; c < CARS; c++)
            cars[c] = advanced(cars[c]);
        putchar(cars[0].floor << 4 | cars[1].floor);
    }
    return served * 100 + refused;
}
