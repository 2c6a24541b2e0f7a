int main(void) { while (getchar() != -1) ; }
