int f1(int x) {
int k;
int s = x;
_Pragma("loopbound min 10 max 10")
for (k = 0; k < 10; k++) s = (s * 5 + 1) % 1000;
return s;
}
int main(void) {
int s = 1;
s = f1(s);
putchar(65 + s % 26);
return s % 256;
}
