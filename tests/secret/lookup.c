/* The permutation with the substitution by look-ups, as the product had it before order W3: the table of products, its rows one behind the other, is
   indexed by the state's cells. The test of secret bytes must report it. */
#include "lookup.h"
#include <string.h>

enum { AHEAD = 7, LARGEST = 72, ROUNDS = 32 };

static const uint8_t rows[16] = {1, 0, 3, 2, 0, 2, 1, 3, 2, 3, 0, 1, 3, 1, 2, 0};
static const uint8_t leader[ROUNDS] = {0, 3, 0, 3, 0, 1, 2, 3, 2, 1, 2, 3, 2, 1, 2, 3, 0, 1, 2, 3, 2, 3, 0, 3, 2, 3, 2, 3, 2, 1, 2, 1};
static const uint8_t place[8] = {1, 3, 5, 8, 7, 6, 2, 4};

static void substitute(uint8_t *s, size_t n, uint8_t p)
{
    for (size_t i = 0; i < n; i++) {
        uint8_t b = s[i];
        s[i] = (uint8_t)(rows[p * 4 + b / 64] * 64 + rows[b / 16] * 16 + rows[b / 4 % 16] * 4 + rows[b % 16]);
        p = b % 4;
    }
}

static uint8_t gathered(const uint8_t *e)
{
    unsigned byte = 0;
    for (unsigned j = 0; j < 8; j++)
        byte |= (e[j] >> j & 1u) << (8 - place[j]);
    return (uint8_t)byte;
}

static void shuffle(uint8_t *s, size_t n)
{
    uint8_t e[LARGEST + AHEAD];
    memcpy(e, s, n);
    memcpy(e + n, s, AHEAD);
    for (size_t i = 0; i < n; i++)
        s[i] = gathered(e + i);
}

void lookup_permute(uint8_t *s, size_t n)
{
    substitute(s, n, leader[0]);
    for (size_t i = 1; i < ROUNDS; i++) {
        shuffle(s, n);
        substitute(s, n, leader[i]);
    }
}
