#pragma flowrestriction 1*step <= 10*main
int main(void) {
    return 7;
}
