/* Loads and stores of every size and sign: in constants, in data that the loader fills, in zeroed data and on the stack.
   What is read is put as four bytes, lowest first, so that an extended sign shows. */
#include "machine.h"

enum { BYTES = 16 };

union Cell {
    unsigned char byte[BYTES];
    unsigned short half[BYTES / 2];
    unsigned word[BYTES / 4];
};

static const volatile union Cell constants = {.word = {0x80ff7f01, 0x7fff8000, 0, 0xffffffff}};
static volatile union Cell filled = {.word = {0x01020304, 0x85868788, 0x7fffffff, 0x80000000}};
static volatile union Cell zeroed;

#define PUT_LOAD(NAME, PLACE)                                      \
    do {                                                           \
        unsigned value;                                            \
        __asm__(NAME " %0, %1" : "=r"(value) : "m"(PLACE));        \
        put_word(value);                                           \
    } while (0)

#define STORE(NAME, VALUE, PLACE) __asm__ volatile(NAME " %1, %0" : "+m"(PLACE) : "r"(VALUE))

static void put_all(const volatile union Cell *cell)
{
    for (int i = 0; i < BYTES; i++) {
        PUT_LOAD("lb", cell->byte[i]);
        PUT_LOAD("lbu", cell->byte[i]);
    }
    for (int i = 0; i < BYTES / 2; i++) {
        PUT_LOAD("lh", cell->half[i]);
        PUT_LOAD("lhu", cell->half[i]);
    }
    for (int i = 0; i < BYTES / 4; i++)
        PUT_LOAD("lw", cell->word[i]);
}

/* Each store takes the low part of its register, and leaves the bytes beside it as they are. */
static void change(volatile union Cell *cell)
{
    STORE("sb", 0x89ab81fe, cell->byte[1]);
    STORE("sb", 0x00000180, cell->byte[15]);
    STORE("sh", 0x89ab81fe, cell->half[2]);
    STORE("sh", 0x00017fff, cell->half[5]);
    STORE("sw", 0x89abcdef, cell->word[3]);
    STORE("sb", 0x00000100, cell->byte[12]);
}

int main(void)
{
    volatile union Cell local = {.word = {1, 2, 3, 4}};
    put_all(&constants);
    put_all(&filled);
    put_all(&zeroed);
    change(&filled);
    change(&zeroed);
    change(&local);
    put_all(&filled);
    put_all(&zeroed);
    put_all(&local);
    return 2147483647;
}
