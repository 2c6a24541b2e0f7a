/* Starts a program without a C library, on Linux for 32 bits, and shows its whole value on standard error. */
int program(void);

static int call(int number, int first, const void *second, int third)
{
    int result;
    __asm__ volatile("int $0x80" : "=a"(result) : "a"(number), "b"(first), "c"(second), "d"(third) : "memory");
    return result;
}

int getchar(void)
{
    unsigned char byte;
    return call(3, 0, &byte, 1) == 1 ? byte : -1;
}

int putchar(int value)
{
    unsigned char byte = (unsigned char)value;
    call(4, 1, &byte, 1);
    return byte;
}

/* Shows words, a blank and a number, and ends with a status. */
static _Noreturn void end(const char *words, int length, int value, int status)
{
    unsigned size = value < 0 ? 0u - (unsigned)value : (unsigned)value;
    char text[12];
    int at = 12;
    do {
        text[--at] = (char)('0' + size % 10);
        size /= 10;
    } while (size);
    if (value < 0)
        text[--at] = '-';
    call(4, 2, words, length);
    call(4, 2, text + at, 12 - at);
    call(1, status, 0, 0);
    __builtin_unreachable();
}

/* A loop's bound is passed. */
_Noreturn void broken(int loop)
{
    end("broken ", 7, loop, 1);
}

void _start(void)
{
    end("", 0, program(), 0);
}
