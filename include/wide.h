/*
 * Products and quotients over 64 bits, in words of 32. The functions are those to call; the macros do the same where no
 * call may stand, as in the initial value of an object at file level, and name their arguments many times.
 *
 *     ((uint64_t)a * b) >> 32            umul_high(a, b)
 *     ((int64_t)a * b) >> 32             mul_high(a, b)
 *     (int32_t)(((int64_t)a * b) >> n)   mul_shift(a, b, n), with n from 1 to 31
 *     ((uint64_t)high << 32 | low) / b   udiv_wide(high, low, b), with high below b
 *     ((int64_t)a << n) / b              div_shift(a, b, n), with n from 1 to 31 and a quotient from -2^31 to 2^31 - 1
 *
 * Where a quotient doesn't fit, or a divisor is 0, the run is undefined: `eval` shows it as the division by zero of a
 * WIDE_HOLDS. With NDEBUG, as by `prepare -D NDEBUG`, nothing is tested, which takes fewer cycles, and the value is some int.
 */
#ifndef WIDE_H
#define WIDE_H

#ifdef NDEBUG
#define WIDE_HOLDS(holds) ((void)0)
#else
#define WIDE_HOLDS(holds) ((void)(1 / (holds)))
#endif

#define WIDE_LOW(x) ((unsigned)(x) & 0xFFFFu)
#define WIDE_TOP(x) ((unsigned)(x) >> 16)
/* The upper half of the first three partial products: it is less than 2^32. */
#define WIDE_MIDDLE(a, b) (WIDE_TOP(a) * WIDE_LOW(b) + WIDE_TOP(WIDE_LOW(a) * WIDE_LOW(b)))

#define UMUL_HIGH(a, b) (WIDE_TOP(a) * WIDE_TOP(b) + WIDE_TOP(WIDE_MIDDLE(a, b)) \
    + WIDE_TOP(WIDE_LOW(a) * WIDE_TOP(b) + WIDE_LOW(WIDE_MIDDLE(a, b))))
#define MUL_HIGH(a, b) ((int)(UMUL_HIGH(a, b) - ((a) < 0 ? (unsigned)(b) : 0u) - ((b) < 0 ? (unsigned)(a) : 0u)))
#define MUL_SHIFT(a, b, n) ((int)((unsigned)MUL_HIGH(a, b) << (32 - (n)) | (unsigned)(a) * (unsigned)(b) >> (n)))

static inline unsigned umul_high(unsigned a, unsigned b)
{
    unsigned al = a & 0xFFFF, ah = a >> 16;
    unsigned bl = b & 0xFFFF, bh = b >> 16;
    unsigned middle = ah * bl + (al * bl >> 16);

    return ah * bh + (middle >> 16) + ((al * bh + (middle & 0xFFFF)) >> 16);
}

static inline int mul_high(int a, int b)
{
    unsigned high = umul_high((unsigned)a, (unsigned)b);

    if (a < 0)
        high -= (unsigned)b;
    if (b < 0)
        high -= (unsigned)a;
    return (int)high;
}

static inline int mul_shift(int a, int b, int n)
{
    return (int)((unsigned)mul_high(a, b) << (32 - n) | (unsigned)a * (unsigned)b >> n);
}

/* Long division: a bit of the quotient each turn, and high is what remains. */
static inline unsigned udiv_wide(unsigned high, unsigned low, unsigned b)
{
    int bit;

    WIDE_HOLDS(high < b);
    _Pragma("loopbound min 32 max 32")
    for (bit = 0; bit < 32; bit++) {
        unsigned carry = high >> 31;

        high = high << 1 | low >> 31;
        low <<= 1;
        if (carry || high >= b) {
            high -= b;
            low |= 1;
        }
    }
    return low;
}

static inline int div_shift(int a, int b, int n)
{
    unsigned size = a < 0 ? 0u - (unsigned)a : (unsigned)a;
    unsigned by = b < 0 ? 0u - (unsigned)b : (unsigned)b;
    unsigned found = udiv_wide(size >> (32 - n), size << n, by);

    WIDE_HOLDS(found <= 0x7FFFFFFFu + ((a < 0) != (b < 0)));
    return (int)((a < 0) != (b < 0) ? 0u - found : found);
}

#endif
