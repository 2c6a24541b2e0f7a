int main(void) { goto a; a: ; }
