int main(void) { return getchar(); }
