int main(void) { int d = getchar() - 49; return 10 % d; }
