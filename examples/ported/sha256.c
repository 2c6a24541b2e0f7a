/*
 * SHA-256 (FIPS 180-4) of the input.
 *
 * Input:  the message, of at most 200 bytes: that is a promise of whoever calls it.
 * Output: its 32 bytes of digest.
 *
 * The text before took a byte at a time, and a block whenever the buffer was full. Here
 * the loop goes over blocks: how often a block is taken is then a bound of the loop, and
 * not one call for each byte, as far as bounds can tell.
 *
 * The bounds: 200 bytes have three whole blocks, and the padding takes one or two more.
 */
#include <stdint.h>
#include <stdio.h>
#include <wcc.h>

#define BLOCK 64
#define DIGEST 32
#define MAX_MESSAGE 200

#define ROTR(x, n) (((x) >> (n)) | ((x) << (32 - (n))))
#define CH(x, y, z) (((x) & (y)) ^ (~(x) & (z)))
#define MAJ(x, y, z) (((x) & (y)) ^ ((x) & (z)) ^ ((y) & (z)))
#define S0(x) (ROTR(x, 2) ^ ROTR(x, 13) ^ ROTR(x, 22))
#define S1(x) (ROTR(x, 6) ^ ROTR(x, 11) ^ ROTR(x, 25))
#define s0(x) (ROTR(x, 7) ^ ROTR(x, 18) ^ ((x) >> 3))
#define s1(x) (ROTR(x, 17) ^ ROTR(x, 19) ^ ((x) >> 10))

static uint32_t state[8];
static uint8_t buffer[BLOCK];

static const uint32_t k[64] = {
    0x428a2f98, 0x71374491, 0xb5c0fbcf, 0xe9b5dba5, 0x3956c25b, 0x59f111f1, 0x923f82a4, 0xab1c5ed5,
    0xd807aa98, 0x12835b01, 0x243185be, 0x550c7dc3, 0x72be5d74, 0x80deb1fe, 0x9bdc06a7, 0xc19bf174,
    0xe49b69c1, 0xefbe4786, 0x0fc19dc6, 0x240ca1cc, 0x2de92c6f, 0x4a7484aa, 0x5cb0a9dc, 0x76f988da,
    0x983e5152, 0xa831c66d, 0xb00327c8, 0xbf597fc7, 0xc6e00bf3, 0xd5a79147, 0x06ca6351, 0x14292967,
    0x27b70a85, 0x2e1b2138, 0x4d2c6dfc, 0x53380d13, 0x650a7354, 0x766a0abb, 0x81c2c92e, 0x92722c85,
    0xa2bfe8a1, 0xa81a664b, 0xc24b8b70, 0xc76c51a3, 0xd192e819, 0xd6990624, 0xf40e3585, 0x106aa070,
    0x19a4c116, 0x1e376c08, 0x2748774c, 0x34b0bcb5, 0x391c0cb3, 0x4ed8aa4a, 0x5b9cca4f, 0x682e6ff3,
    0x748f82ee, 0x78a5636f, 0x84c87814, 0x8cc70208, 0x90befffa, 0xa4506ceb, 0xbef9a3f7, 0xc67178f2,
};

static const uint32_t initial[8] = {
    0x6a09e667, 0xbb67ae85, 0x3c6ef372, 0xa54ff53a, 0x510e527f, 0x9b05688c, 0x1f83d9ab, 0x5be0cd19,
};

static inline uint32_t load_be32(const uint8_t p[], int from)
{
    return (uint32_t)p[from] << 24 | (uint32_t)p[from + 1] << 16 | (uint32_t)p[from + 2] << 8 | p[from + 3];
}

static inline void store_be32(uint8_t p[], int from, uint32_t x)
{
    p[from] = (uint8_t)(x >> 24);
    p[from + 1] = (uint8_t)(x >> 16);
    p[from + 2] = (uint8_t)(x >> 8);
    p[from + 3] = (uint8_t)x;
}

static void clear(int from, int end)
{
    LOOPBOUND(0, BLOCK)
    while (from < end)
        buffer[from++] = 0;
}

static void sha256_init(void)
{
    LOOPBOUND(8, 8)
    for (int i = 0; i < 8; i++)
        state[i] = initial[i];
}

static uint32_t w[64];

static void sha256_block(void)
{
    uint32_t a, b, c, d, e, f, g, h;
    int t;

    LOOPBOUND(16, 16)
    for (t = 0; t < 16; t++)
        w[t] = load_be32(buffer, 4 * t);
    LOOPBOUND(48, 48)
    for (; t < 64; t++)
        w[t] = s1(w[t - 2]) + w[t - 7] + s0(w[t - 15]) + w[t - 16];

    a = state[0]; b = state[1]; c = state[2]; d = state[3];
    e = state[4]; f = state[5]; g = state[6]; h = state[7];

    LOOPBOUND(64, 64)
    for (t = 0; t < 64; t++) {
        uint32_t t1 = h + S1(e) + CH(e, f, g) + k[t] + w[t];
        uint32_t t2 = S0(a) + MAJ(a, b, c);

        h = g; g = f; f = e; e = d + t1;
        d = c; c = b; b = a; a = t1 + t2;
    }

    state[0] += a; state[1] += b; state[2] += c; state[3] += d;
    state[4] += e; state[5] += f; state[6] += g; state[7] += h;
}

/* The next bytes of the message, up to a block: how many there are. */
static int fill(void)
{
    int c, used = 0;

    LOOPBOUND(0, BLOCK)
    while (used < BLOCK && (c = getchar()) != EOF)
        buffer[used++] = (uint8_t)c;
    return used;
}

/* The bit behind the message, zeros, and the length in bits: one more block or two. */
static void sha256_final(int used, uint32_t length)
{
    buffer[used++] = 0x80;
    if (used > BLOCK - 8) {
        clear(used, BLOCK);
        sha256_block();
        used = 0;
    }
    clear(used, BLOCK - 4);
    store_be32(buffer, BLOCK - 4, length * 8);
    sha256_block();
}

int main(void)
{
    uint8_t digest[DIGEST];
    uint32_t length = 0;
    int used;

    sha256_init();
    LOOPBOUND(0, MAX_MESSAGE / BLOCK)
    while ((used = fill()) == BLOCK) {
        sha256_block();
        length += BLOCK;
    }
    sha256_final(used, length + used);
    LOOPBOUND(8, 8)
    for (int i = 0; i < 8; i++)
        store_be32(digest, 4 * i, state[i]);
    LOOPBOUND(DIGEST, DIGEST)
    for (int i = 0; i < DIGEST; i++)
        putchar(digest[i]);
    return 0;
}
