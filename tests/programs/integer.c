/* The instructions of RV32I on registers and immediates, and its branches, on pairs of corner values. Each result is put
   as four bytes, lowest first, and each branch as one byte, 1 where it is taken. */
#include "machine.h"

static const unsigned corners[] = {
    0, 1, 31, 32, 0x7fffffff, 0x80000000, 0xfffff800, 0xffffffff,
};
enum { CORNERS = sizeof corners / sizeof corners[0] };

#define PUT(NAME, A, B)                                             \
    do {                                                            \
        unsigned result;                                            \
        __asm__(NAME " %0, %1, %2" : "=r"(result) : "r"(A), "r"(B)); \
        put_word(result);                                           \
    } while (0)

#define PUT_IMMEDIATE(NAME, A, B)                                   \
    do {                                                            \
        unsigned result;                                            \
        __asm__(NAME " %0, %1, %2" : "=r"(result) : "r"(A), "i"(B)); \
        put_word(result);                                           \
    } while (0)

#define PUT_BRANCH(NAME, A, B)                                                               \
    do {                                                                                     \
        unsigned taken;                                                                      \
        __asm__("li %0, 1\n" NAME " %1, %2, 1f\nli %0, 0\n1:" : "=&r"(taken) : "r"(A), "r"(B)); \
        put_byte(taken);                                                                     \
    } while (0)

static void put_immediates(unsigned a)
{
    PUT_IMMEDIATE("addi", a, -2048);
    PUT_IMMEDIATE("addi", a, 2047);
    PUT_IMMEDIATE("slti", a, -1);
    PUT_IMMEDIATE("sltiu", a, -1);
    PUT_IMMEDIATE("sltiu", a, 1);
    PUT_IMMEDIATE("xori", a, -1);
    PUT_IMMEDIATE("ori", a, -2048);
    PUT_IMMEDIATE("andi", a, -2048);
    PUT_IMMEDIATE("andi", a, 2047);
    PUT_IMMEDIATE("slli", a, 0);
    PUT_IMMEDIATE("slli", a, 31);
    PUT_IMMEDIATE("srli", a, 1);
    PUT_IMMEDIATE("srli", a, 31);
    PUT_IMMEDIATE("srai", a, 1);
    PUT_IMMEDIATE("srai", a, 31);
}

static void put_registers(unsigned a, unsigned b)
{
    PUT("add", a, b);
    PUT("sub", a, b);
    PUT("sll", a, b);
    PUT("slt", a, b);
    PUT("sltu", a, b);
    PUT("xor", a, b);
    PUT("srl", a, b);
    PUT("sra", a, b);
    PUT("or", a, b);
    PUT("and", a, b);
}

static void put_branches(unsigned a, unsigned b)
{
    PUT_BRANCH("beq", a, b);
    PUT_BRANCH("bne", a, b);
    PUT_BRANCH("blt", a, b);
    PUT_BRANCH("bge", a, b);
    PUT_BRANCH("bltu", a, b);
    PUT_BRANCH("bgeu", a, b);
}

int main(void)
{
    for (int i = 0; i < CORNERS; i++) {
        put_immediates(corners[i]);
        for (int j = 0; j < CORNERS; j++) {
            put_registers(corners[i], corners[j]);
            put_branches(corners[i], corners[j]);
        }
    }
    return -1;
}
