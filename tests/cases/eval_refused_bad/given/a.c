int main(void) { return $; }
