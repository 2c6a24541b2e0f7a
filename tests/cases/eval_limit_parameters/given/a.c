int f(int, int, int, int, int, int, int, int, int);
int main(void) { return 7; }
