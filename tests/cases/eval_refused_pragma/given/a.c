int main(void) {
#pragma marker main
    return 7;
}
