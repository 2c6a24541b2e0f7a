# 1 "fir.c"
#pragma GCC optimize ("O2")
static const int taps[16] = {1,2,3,4,5,6,7,8,8,7,6,5,4,3,2,1};
static int hist[16];
static int fir(const int t[], int h[], int x)
{
int i;
int s = 0;
_Pragma("loopbound min 15 max 15")
for (i = 15; i > 0; i--) h[i] = h[i-1];
h[0] = x;
_Pragma("loopbound min 16 max 16")
for (i = 0; i < 16; i++) s += t[i] * h[i];
return s;
}
#line 40
int main(void)
{
int c;
int y = 0;
_Pragma("loopbound min 0 max 64")
while ((c = getchar()) != -1) { y = fir(taps, hist, c); putchar(y >> 6); }
return y & 255;
}
