int f(int x) { return x ? f(x - 1) : 0; }
int main(void) { return f(3); }
