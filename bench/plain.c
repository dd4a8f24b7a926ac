/* The same work in C, as a careful programmer writes it from the papers: two-bit cells, one byte at a time. Compiled four times: as it is the
   shuffle takes the index modulo the size, as a reference implementation does, and cells are looked up; with PLAIN_WRAPPED it reads a copy with
   seven bytes wrapped around; with PLAIN_BITS besides, the products of a byte's cells are a bit formula; with PLAIN_SSE2 the rounds are those of sse2.h. */
#include "plain.h"
#include <string.h>

#ifdef PLAIN_SSE2
#include "sse2.h"
#else
static const uint8_t place[8] = {1, 3, 5, 8, 7, 6, 2, 4};

#ifdef PLAIN_BITS
static void substitute(uint8_t *s, size_t n, uint8_t l)
{
    for (size_t i = 0; i < n; i++) {
        uint8_t b = s[i], x = (uint8_t)(l << 6 | b >> 2), d = (b ^ b >> 1) & x & 0x55;
        s[i] = (uint8_t)(b ^ x ^ d ^ d << 1 ^ (x >> 1 & 0x55) ^ 0x55);
        l = b & 3;
    }
}
#else
static const uint8_t product[4][4] = {{1, 0, 3, 2}, {0, 2, 1, 3}, {2, 3, 0, 1}, {3, 1, 2, 0}};

static void substitute(uint8_t *s, size_t n, uint8_t l)
{
    for (size_t i = 0; i < n; i++) {
        uint8_t b = s[i];
        uint8_t a0 = b >> 6, a1 = b >> 4 & 3, a2 = b >> 2 & 3, a3 = b & 3;
        s[i] = (uint8_t)(product[l][a0] << 6 | product[a0][a1] << 4 | product[a1][a2] << 2 | product[a2][a3]);
        l = a3;
    }
}
#endif

#ifdef PLAIN_WRAPPED
static void shuffle(uint8_t *s, size_t n)
{
    uint8_t e[72 + 7];
    memcpy(e, s, n);
    memcpy(e + n, s, 7);
    for (size_t i = 0; i < n; i++) {
        unsigned out = 0;
        for (unsigned j = 0; j < 8; j++)
            out |= (e[i + j] >> j & 1u) << (8 - place[j]);
        s[i] = (uint8_t)out;
    }
}
#else
static void shuffle(uint8_t *s, size_t n)
{
    uint8_t e[72];
    memcpy(e, s, n);
    for (size_t i = 0; i < n; i++) {
        unsigned out = 0;
        for (unsigned j = 0; j < 8; j++)
            out |= (e[(i + j) % n] >> j & 1u) << (8 - place[j]);
        s[i] = (uint8_t)out;
    }
}
#endif

static void rounds(uint8_t *s, size_t n, unsigned k)
{
    substitute(s, n, leader[0]);
    for (unsigned i = 1; i < k; i++) {
        shuffle(s, n);
        substitute(s, n, leader[i]);
    }
}
#endif

void PLAIN(permute)(uint8_t *s, size_t n) { rounds(s, n, 32); }

void PLAIN(digest)(unsigned number, const uint8_t *m, size_t length, uint8_t *out)
{
    size_t n = instance[number - 1][0] / 8, R = instance[number - 1][1] / 8;
    uint8_t s[72] = {0};
    for (; length >= R; m += R, length -= R) {
        for (size_t i = 0; i < R; i++)
            s[i] ^= m[i];
        rounds(s, n, 32);
    }
    for (size_t i = 0; i < length; i++)
        s[i] ^= m[i];
    s[length] ^= 0x80;
    rounds(s, n, 32);
    for (size_t i = 0; i < 32; i += R) {
        rounds(s, n, 32);
        memcpy(out + i, s, R);
    }
}

static void mix(uint8_t *s, const uint8_t *b, size_t length)
{
    for (size_t i = 0; i < length; i++)
        s[i] ^= b[i];
}

void PLAIN(seal)(unsigned number, const uint8_t *key, const uint8_t *nonce, const uint8_t *a, size_t alen, const uint8_t *m,
                 size_t mlen, uint8_t *out, uint8_t seal[16])
{
    const uint16_t *row = cipher[number - 1];
    size_t k = row[0] / 8, l = row[1] / 8, n = row[2] / 8, R = row[3] / 8;
    uint8_t s[72] = {0};
    memcpy(s, nonce, l);
    memcpy(s + l, key, k);
    rounds(s, n, 32);
    mix(s + l, key, k);
    for (; alen >= R; a += R, alen -= R) {
        mix(s, a, R);
        rounds(s, n, 16);
    }
    mix(s, a, alen);
    s[alen] ^= 0x80;
    s[R - 1] ^= 0x01;
    rounds(s, n, 16);
    s[n - 1] ^= 0x01;
    for (; mlen >= R; m += R, out += R, mlen -= R) {
        mix(s, m, R);
        memcpy(out, s, R);
        rounds(s, n, 16);
    }
    mix(s, m, mlen);
    memcpy(out, s, mlen);
    s[mlen] ^= 0x80;
    rounds(s, n, 16);
    s[n - 1] ^= 0x02;
    rounds(s, n, 32);
    memcpy(seal, s + R, 16);
}
