#pragma flowrestriction 1*byte <= 2*main
int main(void) {
    int n = 0;
#pragma loopbound min 0 max 9
    while (getchar() != -1) {
#pragma marker byte
        n++;
    }
    return n;
}
