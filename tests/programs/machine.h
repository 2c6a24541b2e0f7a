/* The environment calls of the machine, and what the programs here share. */

static inline int get_byte(void)
{
    register int service __asm__("a7") = 1;
    register int value __asm__("a0");
    __asm__ volatile("ecall" : "=r"(value) : "r"(service));
    return value;
}

static inline void put_byte(int byte)
{
    register int service __asm__("a7") = 2;
    register int value __asm__("a0") = byte;
    __asm__ volatile("ecall" : "+r"(value) : "r"(service));
}

static inline void put_word(unsigned word)
{
    for (int shift = 0; shift < 32; shift += 8)
        put_byte(word >> shift);
}
