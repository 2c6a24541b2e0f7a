int main(void) {
    int n = 0;
#pragma loopbound min 0 max 2
    while (getchar() != -1) n++;
    return n;
}
