/* The same work in plain C over eight planes, as ours does it: plane b has bit b of every byte, digit i of it for byte i. What the proof costs is seen beside
   it. Planes of at most 50 bytes are drawn out around their end, those of 64 are turned, and 68 and 72 bytes are two halves. */
#include "plain.h"
#include <string.h>

typedef uint64_t word;
/* The planes of a state's bytes; of 68 and 72 bytes, those of each half. */
struct state {
    word half[2][8];
};

enum { BLOCK = 8, LOW = 64, FOUR = 36 };

static inline size_t least(size_t a, size_t b) { return a < b ? a : b; }

static inline word exchanged(word x, unsigned j, word m)
{
    word t = (x ^ x >> j) & m;
    return x ^ t ^ t << j;
}
/* Eight bytes about their diagonal. */
static inline word woven(word x)
{
    return exchanged(exchanged(exchanged(x, 7, 0x00AA00AA00AA00AA), 14, 0x0000CCCC0000CCCC), 28, 0x00000000F0F0F0F0);
}

static inline void weave(word p[8], const uint8_t *b, size_t length)
{
    if (length == 1) {
        for (unsigned j = 0; j < 8; j++)
            p[j] ^= b[0] >> (7 - j) & 1;
        return;
    }
    for (size_t i = 0; i < length; i += BLOCK) {
        word x = 0;
        memcpy(&x, b + i, least(BLOCK, length - i));
        x = woven(x);
        for (unsigned j = 0; j < 8; j++)
            p[j] ^= (x >> (56 - 8 * j) & 0xFF) << i;
    }
}
static inline void tell(const word p[8], uint8_t *b, size_t length)
{
    if (length == 1) {
        unsigned x = 0;
        for (unsigned j = 0; j < 8; j++)
            x |= (unsigned)(p[j] & 1) << (7 - j);
        b[0] = (uint8_t)x;
        return;
    }
    for (size_t i = 0; i < length; i += BLOCK) {
        word x = 0;
        for (unsigned j = 0; j < 8; j++)
            x |= (p[j] >> i & 0xFF) << (56 - 8 * j);
        x = woven(x);
        memcpy(b + i, &x, least(BLOCK, length - i));
    }
}
/* A block XORed into a state of n bytes, and its first bytes. */
static inline void mix(struct state *s, size_t n, const uint8_t *b, size_t length)
{
    size_t first = n > LOW ? least(length, n / 2) : length;
    weave(s->half[0], b, first);
    if (length > first)
        weave(s->half[1], b + first, length - first);
}
static inline void give(const struct state *s, size_t n, uint8_t *b, size_t length)
{
    size_t first = n > LOW ? least(length, n / 2) : length;
    tell(s->half[0], b, first);
    if (length > first)
        tell(s->half[1], b + first, length - first);
}

/* The products of every byte's cells, y and z being the bits of the cell before each byte. */
static inline void products(word p[8], word y, word z)
{
    for (unsigned j = 0; j < 8; j += 2) {
        word u = p[j], v = p[j + 1], t = z & (u ^ v);
        p[j] = y ^ u ^ t;
        p[j + 1] = ~(y ^ z ^ v ^ t);
        y = u;
        z = v;
    }
}
static inline void substitute(word p[8], word starts, word y, word z) { products(p, (p[6] << 1 & ~starts) ^ y, (p[7] << 1 & ~starts) ^ z); }

static inline void slide(word p[8])
{
    word q[8] = {p[7], p[1] >> 6, p[6] >> 1, p[0] >> 7, p[5] >> 2, p[2] >> 5, p[3] >> 4, p[4] >> 3};
    memcpy(p, q, sizeof q);
}
static inline word rolled(word x, unsigned j) { return x >> j | x << (64 - j); }
static inline void roll(word p[8])
{
    word q[8] = {p[7], rolled(p[1], 6), rolled(p[6], 1), rolled(p[0], 7), rolled(p[5], 2), rolled(p[2], 5), rolled(p[3], 4), rolled(p[4], 3)};
    memcpy(p, q, sizeof q);
}
static inline void draw_out(word p[8], size_t n)
{
    const word m = ((word)1 << n) - 1;
    for (unsigned j = 0; j < 8; j++)
        p[j] = (p[j] & m) | (p[j] & m) << n;
}

static void rounds_drawn(word s[8], size_t n, unsigned k)
{
    const word starts = (word)1 << n | 1, upper[4] = {0, 0, starts, starts}, lower[4] = {0, starts, 0, starts}, m = ((word)1 << n) - 1;
    const unsigned group = n <= FOUR ? 4 : 2;
    word p[8];
    unsigned i = 1;
    memcpy(p, s, sizeof p);
    draw_out(p, n);
    substitute(p, starts, upper[leader[0]], lower[leader[0]]);
    for (; group == 4 && i + 3 < k; i += 4) {
        for (unsigned j = 0; j < 4; j++) {
            slide(p);
            substitute(p, starts, upper[leader[i + j]], lower[leader[i + j]]);
        }
        draw_out(p, n);
    }
    for (; group == 2 && i + 1 < k; i += 2) {
        for (unsigned j = 0; j < 2; j++) {
            slide(p);
            substitute(p, starts, upper[leader[i + j]], lower[leader[i + j]]);
        }
        draw_out(p, n);
    }
    for (; i < k; i++) {
        slide(p);
        substitute(p, starts, upper[leader[i]], lower[leader[i]]);
    }
    for (unsigned j = 0; j < 8; j++)
        s[j] = p[j] & m;
}

static void rounds_around(word s[8], unsigned k)
{
    word p[8];
    memcpy(p, s, sizeof p);
    substitute(p, 1, leader[0] >> 1, leader[0] & 1);
    for (unsigned i = 1; i < k; i++) {
        roll(p);
        substitute(p, 1, leader[i] >> 1, leader[i] & 1);
    }
    memcpy(s, p, sizeof p);
}

/* Each half with the other behind it. */
static inline void draw_both(struct state *s, size_t h)
{
    const word m = ((word)1 << h) - 1;
    for (unsigned j = 0; j < 8; j++) {
        word x = s->half[0][j] & m, y = s->half[1][j] & m;
        s->half[0][j] = x | y << h;
        s->half[1][j] = y | x << h;
    }
}
/* Turns of the first half and then of the second, which reads of the first the cell before the middle. */
static inline void turn_halves(struct state *s, size_t h, const uint8_t *l, unsigned turns, unsigned slides)
{
    const word starts = (word)1 << h;
    word y[4], z[4], p[8];
    memcpy(p, s->half[0], sizeof p);
    for (unsigned j = 0; j < turns; j++) {
        if (slides)
            slide(p);
        y[j] = p[6] >> (h - 1) & 1;
        z[j] = p[7] >> (h - 1) & 1;
        substitute(p, 1, l[j] >> 1, l[j] & 1);
    }
    memcpy(s->half[0], p, sizeof p);
    memcpy(p, s->half[1], sizeof p);
    for (unsigned j = 0; j < turns; j++) {
        if (slides)
            slide(p);
        substitute(p, starts | 1, ((word)(l[j] >> 1) << h) ^ y[j], ((word)(l[j] & 1) << h) ^ z[j]);
    }
    memcpy(s->half[1], p, sizeof p);
}
static void rounds_halves(struct state *s, size_t h, unsigned k)
{
    const word m = ((word)1 << h) - 1;
    unsigned i = 1;
    draw_both(s, h);
    turn_halves(s, h, leader, 1, 0);
    for (; i + 3 < k; i += 4) {
        turn_halves(s, h, leader + i, 4, 1);
        draw_both(s, h);
    }
    for (; i < k; i++)
        turn_halves(s, h, leader + i, 1, 1);
    for (unsigned j = 0; j < 8; j++) {
        s->half[0][j] &= m;
        s->half[1][j] &= m;
    }
}

static void rounds(struct state *s, size_t n, unsigned k)
{
    if (n < LOW)
        rounds_drawn(s->half[0], n, k);
    else if (n == LOW)
        rounds_around(s->half[0], k);
    else
        rounds_halves(s, n / 2, k);
}

void plain_planes_permute(uint8_t *b, size_t n)
{
    struct state s = {{{0}}};
    mix(&s, n, b, n);
    rounds(&s, n, 32);
    give(&s, n, b, n);
}

void plain_planes_digest(unsigned number, const uint8_t *m, size_t length, uint8_t *out)
{
    size_t n = instance[number - 1][0] / 8, R = instance[number - 1][1] / 8;
    struct state s = {{{0}}};
    uint8_t last[16] = {0};
    for (; length >= R; m += R, length -= R) {
        mix(&s, n, m, R);
        rounds(&s, n, 32);
    }
    memcpy(last, m, length);
    last[length] = 0x80;
    mix(&s, n, last, R);
    rounds(&s, n, 32);
    for (size_t i = 0; i < 32; i += R) {
        rounds(&s, n, 32);
        give(&s, n, out + i, R);
    }
}

void plain_planes_seal(unsigned number, const uint8_t *key, const uint8_t *nonce, const uint8_t *a, size_t alen, const uint8_t *m,
                       size_t mlen, uint8_t *out, uint8_t seal[16])
{
    const uint16_t *row = cipher[number - 1];
    size_t k = row[0] / 8, l = row[1] / 8, n = row[2] / 8, R = row[3] / 8;
    struct state s = {{{0}}};
    uint8_t start[72] = {0}, last[16] = {0}, end[16] = {0};
    memcpy(start + l, key, k);
    mix(&s, n, start, n);
    mix(&s, n, nonce, l);
    rounds(&s, n, 32);
    mix(&s, n, start, n);
    for (; alen >= R; a += R, alen -= R) {
        mix(&s, n, a, R);
        rounds(&s, n, 16);
    }
    memcpy(last, a, alen);
    last[alen] ^= 0x80;
    last[R - 1] ^= 0x01;
    mix(&s, n, last, R);
    rounds(&s, n, 16);
    s.half[0][7] ^= (word)0x01 << (n - 1);
    for (; mlen >= R; m += R, out += R, mlen -= R) {
        mix(&s, n, m, R);
        give(&s, n, out, R);
        rounds(&s, n, 16);
    }
    memcpy(end, m, mlen);
    end[mlen] = 0x80;
    mix(&s, n, end, R);
    give(&s, n, end, R);
    memcpy(out, end, mlen);
    rounds(&s, n, 16);
    s.half[0][6] ^= (word)0x01 << (n - 1);
    rounds(&s, n, 32);
    give(&s, n, start, R + 16);
    memcpy(seal, start + R, 16);
}
