/*
 * The product of two 4 by 4 matrices, as a change of coordinates wants it.
 *
 * Input:  32 signed bytes, the rows of the first matrix and then those of the second one; what is missing counts as -1.
 * Output: the 16 elements of the product, each divided by 64 and as a signed byte.
 * Value:  the trace of the product.
 *
 * A product of two elements is within 128 * 128, and a sum of four of them within 65,536.
 * All loops count from 0 to a constant: with --derive they need no pragma.
 */

static void fill(signed char m[])
{
    int i;

    for (i = 0; i < 16; i++)
        m[i] = getchar();
}

static void multiply(const signed char a[16], const signed char b[16], int product[16])
{
    int row, column, k;

    for (row = 0; row < 4; row++) {
        for (column = 0; column < 4; column++) {
            int sum = 0;

            for (k = 0; k < 4; k++)
                sum += a[4 * row + k] * b[4 * k + column];
            product[4 * row + column] = sum;
        }
    }
}

int main(void)
{
    signed char a[16], b[16];
    int product[16];
    int i;

    fill(a);
    fill(b);
    multiply(a, b, product);
    for (i = 0; i < 16; i++)
        putchar(product[i] / 64);
    return product[0] + product[5] + product[10] + product[15];
}
