/* The shortest ways between six places (Floyd, Warshall): of 6 * 6 * 6 turns those of three different places do something. */
#pragma flowrestriction 1*compared = 120*close
#pragma flowrestriction 1*shorter <= 1*compared

static int way[36];

static void close(void)
{
    int i, j, k;

    #pragma loopbound min 6 max 6
    for (k = 0; k < 6; k++) {
        #pragma loopbound min 6 max 6
        for (i = 0; i < 6; i++) {
            #pragma loopbound min 6 max 6
            for (j = 0; j < 6; j++) {
                if (i != j && i != k && j != k) {
                    int sum = way[6 * i + k] + way[6 * k + j];

                    #pragma marker compared
                    if (sum < way[6 * i + j]) {
                        #pragma marker shorter
                        way[6 * i + j] = sum;
                    }
                }
            }
        }
    }
}

int main(void)
{
    int i;

    #pragma loopbound min 36 max 36
    for (i = 0; i < 36; i++)
        way[i] = getchar() + 1;
    close();
    #pragma loopbound min 36 max 36
    for (i = 0; i < 36; i++)
        putchar(way[i]);
    return way[1];
}
