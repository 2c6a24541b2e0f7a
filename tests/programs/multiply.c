/* The eight instructions of the M extension on all pairs of corner values, each result as four bytes, lowest first. */
#include "machine.h"

static const unsigned corners[] = {
    0, 1, 2, 7, 0x7fffffff, 0x80000000, 0x80000001, 0xfffffff9, 0xffffffff,
};
enum { CORNERS = sizeof corners / sizeof corners[0] };

#define PUT(NAME, A, B)                                             \
    do {                                                            \
        unsigned result;                                            \
        __asm__(NAME " %0, %1, %2" : "=r"(result) : "r"(A), "r"(B)); \
        put_word(result);                                           \
    } while (0)

int main(void)
{
    for (int i = 0; i < CORNERS; i++) {
        for (int j = 0; j < CORNERS; j++) {
            unsigned a = corners[i], b = corners[j];
            PUT("mul", a, b);
            PUT("mulh", a, b);
            PUT("mulhsu", a, b);
            PUT("mulhu", a, b);
            PUT("div", a, b);
            PUT("divu", a, b);
            PUT("rem", a, b);
            PUT("remu", a, b);
        }
    }
    return 0;
}
