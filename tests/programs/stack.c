/* Words on the stack behind data of five bytes: they are aligned where the stack is. */
#include "machine.h"

static volatile char odd[5];

/* Not inlined, so that its array is in a frame of its own. */
static __attribute__((noinline)) int sum_of(int count)
{
    volatile int words[8];
    int sum = 0;

    for (int i = 0; i < 8; i++)
        words[i] = i * count;
    for (int i = 0; i < 8; i++)
        sum += words[i];
    return sum;
}

int main(void)
{
    for (int i = 0; i < 5; i++)
        odd[i] = (char)(i + 1);
    return sum_of(odd[4]);
}
