/*
 * SHA-256 (FIPS 180-4) of the input.
 *
 * Input:  the message.
 * Output: its 32 bytes of digest.
 */
#include <stdint.h>
#include <stddef.h>
#include <stdio.h>
#include <string.h>

#define BLOCK 64
#define DIGEST 32

#define ROTR(x, n) (((x) >> (n)) | ((x) << (32 - (n))))
#define CH(x, y, z) (((x) & (y)) ^ (~(x) & (z)))
#define MAJ(x, y, z) (((x) & (y)) ^ ((x) & (z)) ^ ((y) & (z)))
#define S0(x) (ROTR(x, 2) ^ ROTR(x, 13) ^ ROTR(x, 22))
#define S1(x) (ROTR(x, 6) ^ ROTR(x, 11) ^ ROTR(x, 25))
#define s0(x) (ROTR(x, 7) ^ ROTR(x, 18) ^ ((x) >> 3))
#define s1(x) (ROTR(x, 17) ^ ROTR(x, 19) ^ ((x) >> 10))

typedef struct {
    uint32_t state[8];
    uint64_t bits;
    uint8_t buffer[BLOCK];
    size_t used;
} sha256_t;

static const uint32_t k[64] = {
    0x428a2f98, 0x71374491, 0xb5c0fbcf, 0xe9b5dba5, 0x3956c25b, 0x59f111f1, 0x923f82a4, 0xab1c5ed5,
    0xd807aa98, 0x12835b01, 0x243185be, 0x550c7dc3, 0x72be5d74, 0x80deb1fe, 0x9bdc06a7, 0xc19bf174,
    0xe49b69c1, 0xefbe4786, 0x0fc19dc6, 0x240ca1cc, 0x2de92c6f, 0x4a7484aa, 0x5cb0a9dc, 0x76f988da,
    0x983e5152, 0xa831c66d, 0xb00327c8, 0xbf597fc7, 0xc6e00bf3, 0xd5a79147, 0x06ca6351, 0x14292967,
    0x27b70a85, 0x2e1b2138, 0x4d2c6dfc, 0x53380d13, 0x650a7354, 0x766a0abb, 0x81c2c92e, 0x92722c85,
    0xa2bfe8a1, 0xa81a664b, 0xc24b8b70, 0xc76c51a3, 0xd192e819, 0xd6990624, 0xf40e3585, 0x106aa070,
    0x19a4c116, 0x1e376c08, 0x2748774c, 0x34b0bcb5, 0x391c0cb3, 0x4ed8aa4a, 0x5b9cca4f, 0x682e6ff3,
    0x748f82ee, 0x78a5636f, 0x84c87814, 0x8cc70208, 0x90befffa, 0xa4506ceb, 0xbef9a3f7, 0xc67178f2,
};

static inline uint32_t load_be32(const uint8_t *p)
{
    return (uint32_t)p[0] << 24 | (uint32_t)p[1] << 16 | (uint32_t)p[2] << 8 | p[3];
}

static inline void store_be32(uint8_t *p, uint32_t x)
{
    p[0] = (uint8_t)(x >> 24);
    p[1] = (uint8_t)(x >> 16);
    p[2] = (uint8_t)(x >> 8);
    p[3] = (uint8_t)x;
}

static void sha256_init(sha256_t *ctx)
{
    static const uint32_t initial[8] = {
        0x6a09e667, 0xbb67ae85, 0x3c6ef372, 0xa54ff53a, 0x510e527f, 0x9b05688c, 0x1f83d9ab, 0x5be0cd19,
    };

    memcpy(ctx->state, initial, sizeof initial);
    ctx->bits = 0;
    ctx->used = 0;
}

static void sha256_block(sha256_t *ctx)
{
    uint32_t w[64];
    uint32_t a, b, c, d, e, f, g, h;
    int t;

    for (t = 0; t < 16; t++)
        w[t] = load_be32(ctx->buffer + 4 * t);
    for (; t < 64; t++)
        w[t] = s1(w[t - 2]) + w[t - 7] + s0(w[t - 15]) + w[t - 16];

    a = ctx->state[0]; b = ctx->state[1]; c = ctx->state[2]; d = ctx->state[3];
    e = ctx->state[4]; f = ctx->state[5]; g = ctx->state[6]; h = ctx->state[7];

    for (t = 0; t < 64; t++) {
        uint32_t t1 = h + S1(e) + CH(e, f, g) + k[t] + w[t];
        uint32_t t2 = S0(a) + MAJ(a, b, c);

        h = g; g = f; f = e; e = d + t1;
        d = c; c = b; b = a; a = t1 + t2;
    }

    ctx->state[0] += a; ctx->state[1] += b; ctx->state[2] += c; ctx->state[3] += d;
    ctx->state[4] += e; ctx->state[5] += f; ctx->state[6] += g; ctx->state[7] += h;
}

static void sha256_update(sha256_t *ctx, const uint8_t *data, size_t length)
{
    ctx->bits += (uint64_t)length * 8;
    while (length--) {
        ctx->buffer[ctx->used++] = *data++;
        if (ctx->used == BLOCK) {
            sha256_block(ctx);
            ctx->used = 0;
        }
    }
}

static void sha256_final(sha256_t *ctx, uint8_t digest[DIGEST])
{
    uint64_t bits = ctx->bits;
    uint8_t pad = 0x80;
    uint8_t length[8];
    int i;

    sha256_update(ctx, &pad, 1);
    pad = 0;
    while (ctx->used != BLOCK - 8)
        sha256_update(ctx, &pad, 1);
    for (i = 7; i >= 0; i--, bits >>= 8)
        length[i] = (uint8_t)bits;
    sha256_update(ctx, length, sizeof length);
    for (i = 0; i < 8; i++)
        store_be32(digest + 4 * i, ctx->state[i]);
}

int main(void)
{
    sha256_t ctx;
    uint8_t digest[DIGEST];
    int c;

    sha256_init(&ctx);
    while ((c = getchar()) != EOF) {
        uint8_t byte = (uint8_t)c;

        sha256_update(&ctx, &byte, 1);
    }
    sha256_final(&ctx, digest);
    for (size_t i = 0; i < sizeof digest; i++)
        putchar(digest[i]);
    return 0;
}
