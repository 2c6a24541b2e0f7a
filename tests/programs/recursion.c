/* Recursive functions: each value is printed in decimal, also by recursion, on a line of its own. */
#include "machine.h"

static __attribute__((noinline)) unsigned ackermann(unsigned m, unsigned n)
{
    if (m == 0)
        return n + 1;
    return ackermann(m - 1, n == 0 ? 1 : ackermann(m, n - 1));
}

static __attribute__((noinline)) unsigned fibonacci(unsigned n)
{
    return n < 2 ? n : fibonacci(n - 1) + fibonacci(n - 2);
}

static __attribute__((noinline)) unsigned depth(unsigned n)
{
    return n == 0 ? 0 : 1 + depth(n - 1) % 1000003;
}

static __attribute__((noinline)) void put_decimal(unsigned value)
{
    if (value >= 10)
        put_decimal(value / 10);
    put_byte('0' + value % 10);
}

static void put_line(unsigned value)
{
    put_decimal(value);
    put_byte('\n');
}

int main(void)
{
    put_line(ackermann(2, 9));
    put_line(ackermann(3, 3));
    put_line(fibonacci(16));
    put_line(depth(5000));
    put_line(4294967295u);
    put_line(0);
    return fibonacci(10);
}
