/* The C versions beside ours, from one source: plain_mod_* takes indices modulo the size, plain_wrap_* reads a wrapped copy, plain_bits_* does
   that with a bit formula in place of the table, and plain_sse2_* is the permutation written by hand with SSE2 registers. plain_planes_* (planes.c) works
   over eight planes, as ours does. */
#ifndef PLAIN_H
#define PLAIN_H
#include <stddef.h>
#include <stdint.h>

#if defined PLAIN_SSE2
#define PLAIN(name) plain_sse2_##name
#elif defined PLAIN_BITS
#define PLAIN(name) plain_bits_##name
#elif defined PLAIN_WRAPPED
#define PLAIN(name) plain_wrap_##name
#else
#define PLAIN(name) plain_mod_##name
#endif

#define PLAIN_CALLS(prefix)                                                                                              \
    void prefix##_permute(uint8_t *s, size_t n);                                                                         \
    void prefix##_digest(unsigned number, const uint8_t *m, size_t length, uint8_t *out);                                \
    void prefix##_seal(unsigned number, const uint8_t *key, const uint8_t *nonce, const uint8_t *a, size_t alen,         \
                       const uint8_t *m, size_t mlen, uint8_t *out, uint8_t seal[16]);
PLAIN_CALLS(plain_mod)
PLAIN_CALLS(plain_wrap)
PLAIN_CALLS(plain_bits)
PLAIN_CALLS(plain_sse2)
PLAIN_CALLS(plain_planes)

/* The leaders (document 000, Table 1.2). */
static const uint8_t leader[32] = {0, 3, 0, 3, 0, 1, 2, 3, 2, 1, 2, 3, 2, 1, 2, 3,
                                   0, 1, 2, 3, 2, 3, 0, 3, 2, 3, 2, 3, 2, 1, 2, 1};
/* State and rate of the digest's instances; key, nonce, state and rate of the cipher's; in bits. */
static const uint16_t instance[10][2] = {{232, 8},  {240, 16}, {256, 32},  {288, 64}, {272, 16},
                                         {288, 32}, {320, 64}, {384, 128}, {544, 32}, {576, 64}};
static const uint16_t cipher[6][4] = {{128, 96, 232, 8},  {128, 96, 240, 16}, {128, 96, 256, 32},
                                      {128, 128, 320, 64}, {256, 96, 512, 64}, {256, 128, 512, 64}};
#endif
