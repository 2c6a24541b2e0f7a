/* What `bench/eval` times: arithmetic, an array and a call, whose every node is executed as often as its bounds say. */
int a[16];

int mixed(unsigned s, int x)
{
    return (int)(s >> 8 & 255u) - x / 2;
}

int main(void)
{
    unsigned s = 1, i = 0;
    _Pragma("loopbound min 500000 max 500000")
    do {
        s = s * 1103515245u + 12345u;
        a[s >> 28] = mixed(s, a[s >> 24 & 15u]);
        s ^= (unsigned)a[s >> 20 & 15u];
        i++;
    } while (i < 500000u);
    return s & 255u;
}
