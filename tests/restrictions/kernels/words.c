/* Reads a line of at most 100 bytes with numbers and words, and adds the numbers: each byte is read by one of three loops. */
#pragma flowrestriction 1*digit + 1*letter + 1*other <= 100*main
#pragma flowrestriction 1*put_word <= 1*letter

static int next, used;

static void step(void)
{
    next = ++used < 100 ? getchar() : -1;
}

static int number(void)
{
    int value = 0;

    #pragma loopbound min 1 max 100
    while (next >= '0' && next <= '9') {
        #pragma marker digit
        value = (value * 10 + next - '0') % 10000;
        step();
    }
    return value;
}

static void put_word(void)
{
    int sum = 0;

    #pragma loopbound min 1 max 100
    while (next >= 'a' && next <= 'z') {
        #pragma marker letter
        sum = (sum * 31 + next) & 65535;
        step();
    }
    putchar(sum & 255);
    putchar(sum >> 8);
}

int main(void)
{
    int sum = 0;

    next = getchar();
    #pragma loopbound min 0 max 100
    while (next >= 0) {
        if (next >= '0' && next <= '9') {
            sum += number();
        } else if (next >= 'a' && next <= 'z') {
            put_word();
        } else {
            #pragma marker other
            step();
        }
    }
    return sum & 255;
}
