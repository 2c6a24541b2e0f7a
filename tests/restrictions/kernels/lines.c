/* Draws lines on a display of 64 by 64 points by Bresenham's way: each step goes along, and some go aside too. */
#pragma flowrestriction 1*along <= 63*line
#pragma flowrestriction 1*aside <= 1*along
#pragma flowrestriction 1*along <= 1000*main

static unsigned char dots[512];
static int left = 1000;

static void line(int x, int y, int dx, int dy)
{
    int error = dx / 2;

    #pragma loopbound min 0 max 63
    while (x < 63 && dx > 0 && left > 0) {
        #pragma marker along
        left--;
        dots[y * 8 + x / 8] |= 1 << (x & 7);
        error -= dy;
        if (error < 0 && y < 63) {
            #pragma marker aside
            y++;
            error += dx;
        }
        x++;
    }
}

int main(void)
{
    int count;

    #pragma loopbound min 0 max 50
    for (count = 0; count < 50; count++) {
        int at = getchar(), to = getchar();

        if (to == -1)
            break;
        line(at & 63, to & 63, at >> 2, at >> 3);
    }
    return dots[100];
}
