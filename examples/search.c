/*
 * Binary search in a table of fault codes that a monitor knows.
 *
 * Input:  up to 32 codes, two bytes each, the higher one first.
 * Output: the place of each code in the table, or 255 where it isn't there.
 * Value:  the number of codes that were found.
 *
 * The bounds: at the head of the search, high - low is at most 15, then 7, 3, 1, and each turn leaves the search or at
 * most halves what is left, so there are at most 4 turns; 15 is odd each time, so there are never more. There is always
 * a first turn, since the table isn't empty. The outer loop ends at the latest after 32 codes, and its body starts at
 * least once, since it is the body that sees the input end.
 *
 * Where the fourth turn has not found the code, the test ends the search. The bound of a loop leaves open that it holds a
 * fifth time, and that this turn returns; the restriction says that no search looks at more than 4 places.
 */

#pragma flowrestriction 1*look <= 4*find

static const unsigned short codes[15] = {
    0x0012, 0x0101, 0x0102, 0x0203, 0x0A00, 0x1000, 0x1001, 0x1F40, 0x2000, 0x3333, 0x4141, 0x5000, 0x7FFF, 0x8001, 0xFFFE,
};

static int find(int code)
{
    int low = 0;
    int high = 15;

    #pragma loopbound min 1 max 4
    while (low < high) {
        #pragma marker look
        int middle = (low + high) / 2;

        if (codes[middle] == code)
            return middle;
        if (codes[middle] < code)
            low = middle + 1;
        else
            high = middle;
    }
    return -1;
}

int main(void)
{
    int found = 0;
    int count;

    #pragma loopbound min 1 max 32
    for (count = 0; count < 32; count++) {
        int high = getchar();
        int low = getchar();
        int place;

        if (low == -1)
            break;
        place = find(high << 8 | low);
        putchar(place);
        if (place >= 0)
            found++;
    }
    return found;
}
