/* The primes below 200 by the sieve: numbers are crossed out 230 times. */
#pragma flowrestriction 1*crossed = 230*sieve
#pragma flowrestriction 1*prime <= 46*main

static unsigned char is_composite[200];

static void sieve(void)
{
    int i, j;

    #pragma loopbound min 13 max 13
    for (i = 2; i < 15; i++) {
        if (!is_composite[i]) {
            #pragma loopbound min 3 max 98
            for (j = i * i; j < 200; j += i) {
                #pragma marker crossed
                is_composite[j] = 1;
            }
        }
    }
}

int main(void)
{
    int i, sum = 0;

    sieve();
    #pragma loopbound min 198 max 198
    for (i = 2; i < 200; i++) {
        if (!is_composite[i]) {
            #pragma marker prime
            putchar(i);
            sum += i;
        }
    }
    return sum & 255;
}
