/* Puts each byte of the input to the output and exits with their number. The input's end is asked for twice. */
#include "machine.h"

int main(void)
{
    int count = 0, byte;
    while ((byte = get_byte()) != -1) {
        put_byte(byte);
        count++;
    }
    return get_byte() == -1 ? count : -count;
}
