#include "plain.h"
#include <string.h>

static const uint64_t RC[24] = {
    0x0000000000000001, 0x0000000000008082, 0x800000000000808a, 0x8000000080008000, 0x000000000000808b, 0x0000000080000001,
    0x8000000080008081, 0x8000000000008009, 0x000000000000008a, 0x0000000000000088, 0x0000000080008009, 0x000000008000000a,
    0x000000008000808b, 0x800000000000008b, 0x8000000000008089, 0x8000000000008003, 0x8000000000008002, 0x8000000000000080,
    0x000000000000800a, 0x800000008000000a, 0x8000000080008081, 0x8000000000008080, 0x0000000080000001, 0x8000000080008008,
};

static uint64_t rotl(uint64_t x, int n) { return x << n | x >> (-n & 63); }

/* one plane after theta, rho, pi and chi: lanes i0 .. i4 of a, with theta's effects d0 .. d4, turned by n0 .. n4 */
#define PLANE(y, i0, d0, n0, i1, d1, n1, i2, d2, n2, i3, d3, n3, i4, d4, n4) \
    do { \
        uint64_t b0 = rotl(a[i0] ^ d0, n0), b1 = rotl(a[i1] ^ d1, n1), b2 = rotl(a[i2] ^ d2, n2); \
        uint64_t b3 = rotl(a[i3] ^ d3, n3), b4 = rotl(a[i4] ^ d4, n4); \
        e[y] = b0 ^ (~b1 & b2); \
        e[y + 1] = b1 ^ (~b2 & b3); \
        e[y + 2] = b2 ^ (~b3 & b4); \
        e[y + 3] = b3 ^ (~b4 & b0); \
        e[y + 4] = b4 ^ (~b0 & b1); \
    } while (0)

static void turn(const uint64_t a[25], uint64_t e[25], uint64_t rc)
{
    uint64_t c0 = a[0] ^ a[5] ^ a[10] ^ a[15] ^ a[20];
    uint64_t c1 = a[1] ^ a[6] ^ a[11] ^ a[16] ^ a[21];
    uint64_t c2 = a[2] ^ a[7] ^ a[12] ^ a[17] ^ a[22];
    uint64_t c3 = a[3] ^ a[8] ^ a[13] ^ a[18] ^ a[23];
    uint64_t c4 = a[4] ^ a[9] ^ a[14] ^ a[19] ^ a[24];
    uint64_t d0 = c4 ^ rotl(c1, 1), d1 = c0 ^ rotl(c2, 1), d2 = c1 ^ rotl(c3, 1), d3 = c2 ^ rotl(c4, 1), d4 = c3 ^ rotl(c0, 1);
    PLANE(0, 0, d0, 0, 6, d1, 44, 12, d2, 43, 18, d3, 21, 24, d4, 14);
    PLANE(5, 3, d3, 28, 9, d4, 20, 10, d0, 3, 16, d1, 45, 22, d2, 61);
    PLANE(10, 1, d1, 1, 7, d2, 6, 13, d3, 25, 19, d4, 8, 20, d0, 18);
    PLANE(15, 4, d4, 27, 5, d0, 36, 11, d1, 10, 17, d2, 15, 23, d3, 56);
    PLANE(20, 2, d2, 62, 8, d3, 55, 14, d4, 39, 15, d0, 41, 21, d1, 2);
    e[0] ^= rc;
}

static void absorb(uint64_t a[25], const uint8_t *p)
{
    uint64_t e[25];
    for (int i = 0; i < 17; i++) {
        uint64_t x = 0;
        for (int j = 0; j < 8; j++)
            x |= (uint64_t)p[8 * i + j] << 8 * j;
        a[i] ^= x;
    }
    for (int t = 0; t < 24; t += 2) {
        turn(a, e, RC[t]);
        turn(e, a, RC[t + 1]);
    }
}

void plain_sha3_256(const uint8_t *message, size_t length, uint8_t out[32])
{
    uint64_t a[25] = {0};
    size_t full = length / 136, rest = length % 136;
    uint8_t tail[136] = {0};
    for (size_t i = 0; i < full; i++)
        absorb(a, message + 136 * i);
    memcpy(tail, message + 136 * full, rest);
    tail[rest] = 0x06;
    tail[135] |= 0x80;
    absorb(a, tail);
    for (int i = 0; i < 32; i++)
        out[i] = (uint8_t)(a[i / 8] >> 8 * (i % 8));
}
