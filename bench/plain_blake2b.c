// Function F of BLAKE2b in plain C, twice, as peers in the benchmark:
// with a loop over the rounds as in RFC 7693, and with the rounds written out.
#include "plain.h"

#define ROTR(x, n) (((x) >> (n)) | ((x) << (64 - (n))))

// The mixing function G on four words of v with two words of the message.
#define G(a, b, c, d, x, y)                 \
    do {                                    \
        v[a] = v[a] + v[b] + (x);           \
        v[d] = ROTR(v[d] ^ v[a], 32);       \
        v[c] = v[c] + v[d];                 \
        v[b] = ROTR(v[b] ^ v[c], 24);       \
        v[a] = v[a] + v[b] + (y);           \
        v[d] = ROTR(v[d] ^ v[a], 16);       \
        v[c] = v[c] + v[d];                 \
        v[b] = ROTR(v[b] ^ v[c], 63);       \
    } while (0)

// One round with the message words in the order s0 to s15.
#define ROUND(s0, s1, s2, s3, s4, s5, s6, s7, s8, s9, s10, s11, s12, s13, s14, s15) \
    do {                                    \
        G(0, 4, 8, 12, m[s0], m[s1]);       \
        G(1, 5, 9, 13, m[s2], m[s3]);       \
        G(2, 6, 10, 14, m[s4], m[s5]);      \
        G(3, 7, 11, 15, m[s6], m[s7]);      \
        G(0, 5, 10, 15, m[s8], m[s9]);      \
        G(1, 6, 11, 12, m[s10], m[s11]);    \
        G(2, 7, 8, 13, m[s12], m[s13]);     \
        G(3, 4, 9, 14, m[s14], m[s15]);     \
    } while (0)

static const uint64_t IV[8] = {
    0x6a09e667f3bcc908, 0xbb67ae8584caa73b, 0x3c6ef372fe94f82b, 0xa54ff53a5f1d36f1,
    0x510e527fade682d1, 0x9b05688c2b3e6c1f, 0x1f83d9abfb41bd6b, 0x5be0cd19137e2179,
};

static const uint8_t SIGMA[12][16] = {
    { 0, 1, 2, 3, 4, 5, 6, 7, 8, 9, 10, 11, 12, 13, 14, 15 },
    { 14, 10, 4, 8, 9, 15, 13, 6, 1, 12, 0, 2, 11, 7, 5, 3 },
    { 11, 8, 12, 0, 5, 2, 15, 13, 10, 14, 3, 6, 7, 1, 9, 4 },
    { 7, 9, 3, 1, 13, 12, 11, 14, 2, 6, 5, 10, 4, 0, 15, 8 },
    { 9, 0, 5, 7, 2, 4, 10, 15, 14, 1, 11, 12, 6, 8, 3, 13 },
    { 2, 12, 6, 10, 0, 11, 8, 3, 4, 13, 7, 5, 15, 14, 1, 9 },
    { 12, 5, 1, 15, 14, 13, 4, 10, 0, 7, 6, 3, 9, 2, 8, 11 },
    { 13, 11, 7, 14, 12, 1, 3, 9, 5, 0, 15, 4, 8, 6, 2, 10 },
    { 6, 15, 14, 9, 11, 3, 0, 8, 12, 2, 13, 7, 1, 4, 10, 5 },
    { 10, 2, 8, 4, 7, 6, 1, 5, 15, 11, 9, 14, 3, 12, 13, 0 },
    { 0, 1, 2, 3, 4, 5, 6, 7, 8, 9, 10, 11, 12, 13, 14, 15 },
    { 14, 10, 4, 8, 9, 15, 13, 6, 1, 12, 0, 2, 11, 7, 5, 3 },
};

static inline uint64_t load64(const uint8_t *p)
{
    return (uint64_t)p[0] | (uint64_t)p[1] << 8 | (uint64_t)p[2] << 16 | (uint64_t)p[3] << 24
         | (uint64_t)p[4] << 32 | (uint64_t)p[5] << 40 | (uint64_t)p[6] << 48 | (uint64_t)p[7] << 56;
}

// Set up the working vector v and the message words m, before the rounds.
static inline void start(uint64_t v[16], uint64_t m[16], const uint64_t h[8], const uint8_t block[128],
                         uint64_t t_low, uint64_t t_high, int last)
{
    for (int i = 0; i < 8; i++) {
        v[i] = h[i];
        v[i + 8] = IV[i];
    }
    v[12] ^= t_low;
    v[13] ^= t_high;
    if (last)
        v[14] = ~v[14];
    for (int i = 0; i < 16; i++)
        m[i] = load64(block + 8 * i);
}

void plain_blake2b(uint64_t h[8], const uint8_t block[128], uint64_t t_low, uint64_t t_high, int last)
{
    uint64_t v[16], m[16];
    start(v, m, h, block, t_low, t_high, last);
    for (int i = 0; i < 12; i++) {
        const uint8_t *s = SIGMA[i];
        ROUND(s[0], s[1], s[2], s[3], s[4], s[5], s[6], s[7],
              s[8], s[9], s[10], s[11], s[12], s[13], s[14], s[15]);
    }
    for (int i = 0; i < 8; i++)
        h[i] ^= v[i] ^ v[i + 8];
}

void plain_blake2b_unrolled(uint64_t h[8], const uint8_t block[128], uint64_t t_low, uint64_t t_high, int last)
{
    uint64_t v[16], m[16];
    start(v, m, h, block, t_low, t_high, last);
    ROUND(0, 1, 2, 3, 4, 5, 6, 7, 8, 9, 10, 11, 12, 13, 14, 15);
    ROUND(14, 10, 4, 8, 9, 15, 13, 6, 1, 12, 0, 2, 11, 7, 5, 3);
    ROUND(11, 8, 12, 0, 5, 2, 15, 13, 10, 14, 3, 6, 7, 1, 9, 4);
    ROUND(7, 9, 3, 1, 13, 12, 11, 14, 2, 6, 5, 10, 4, 0, 15, 8);
    ROUND(9, 0, 5, 7, 2, 4, 10, 15, 14, 1, 11, 12, 6, 8, 3, 13);
    ROUND(2, 12, 6, 10, 0, 11, 8, 3, 4, 13, 7, 5, 15, 14, 1, 9);
    ROUND(12, 5, 1, 15, 14, 13, 4, 10, 0, 7, 6, 3, 9, 2, 8, 11);
    ROUND(13, 11, 7, 14, 12, 1, 3, 9, 5, 0, 15, 4, 8, 6, 2, 10);
    ROUND(6, 15, 14, 9, 11, 3, 0, 8, 12, 2, 13, 7, 1, 4, 10, 5);
    ROUND(10, 2, 8, 4, 7, 6, 1, 5, 15, 11, 9, 14, 3, 12, 13, 0);
    ROUND(0, 1, 2, 3, 4, 5, 6, 7, 8, 9, 10, 11, 12, 13, 14, 15);
    ROUND(14, 10, 4, 8, 9, 15, 13, 6, 1, 12, 0, 2, 11, 7, 5, 3);
    for (int i = 0; i < 8; i++)
        h[i] ^= v[i] ^ v[i + 8];
}
