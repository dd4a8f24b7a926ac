/* The rounds by hand with SSE2 registers, sixteen bytes at once: shuffle and substitution in one pass from one buffer to the other, the byte before
   a word carried in a register. What ours is measured against. */
#include <emmintrin.h>
#include <string.h>

enum { WORD = 16, ROOM = 96, STATE = 72 };

static inline __m128i all(int byte) { return _mm_set1_epi8((char)byte); }
static inline __m128i load(const uint8_t *p) { return _mm_loadu_si128((const __m128i *)p); }
static inline __m128i or4(__m128i a, __m128i b, __m128i c, __m128i d) { return _mm_or_si128(_mm_or_si128(a, b), _mm_or_si128(c, d)); }

/* The products of the cells of x and y, by the formula that ours has too. */
static inline __m128i products(__m128i x, __m128i y)
{
    const __m128i low = all(0x55);
    __m128i d = _mm_and_si128(_mm_and_si128(_mm_xor_si128(y, _mm_srli_epi16(y, 1)), x), low);
    return _mm_xor_si128(_mm_xor_si128(_mm_xor_si128(x, y), _mm_xor_si128(d, low)),
                         _mm_xor_si128(_mm_add_epi8(d, d), _mm_and_si128(_mm_srli_epi16(x, 1), low)));
}

/* Sixteen bytes substituted after those in `before`, of which the last counts. */
static inline __m128i substituted(__m128i before, __m128i y)
{
    __m128i left = _mm_or_si128(_mm_slli_si128(y, 1), _mm_srli_si128(before, WORD - 1));
    return products(_mm_or_si128(_mm_and_si128(_mm_slli_epi16(left, 6), all(0xC0)), _mm_and_si128(_mm_srli_epi16(y, 2), all(0x3F))), y);
}

/* Sixteen bytes of the shuffle, whose elements stand from e on. */
static inline __m128i gathered(const uint8_t *e)
{
    return _mm_or_si128(or4(_mm_and_si128(_mm_slli_epi16(load(e), 7), all(0x80)), _mm_and_si128(_mm_slli_epi16(load(e + 1), 4), all(0x20)),
                            _mm_and_si128(_mm_slli_epi16(load(e + 2), 1), all(0x08)), _mm_and_si128(_mm_srli_epi16(load(e + 3), 3), all(0x01))),
                        or4(_mm_and_si128(_mm_srli_epi16(load(e + 4), 3), all(0x02)), _mm_and_si128(_mm_srli_epi16(load(e + 5), 3), all(0x04)),
                            _mm_and_si128(load(e + 6), all(0x40)), _mm_and_si128(_mm_srli_epi16(load(e + 7), 3), all(0x10))));
}

static inline __m128i led(uint8_t l) { return _mm_slli_si128(_mm_cvtsi32_si128(l), WORD - 1); }

/* One pass over the words, each as `word` gives it, substituted after the one before. */
static inline void pass(const uint8_t *from, uint8_t *to, size_t words, uint8_t l, __m128i (*word)(const uint8_t *))
{
    __m128i before = led(l);
    for (size_t k = 0; k < words; k++) {
        __m128i y = word(from + WORD * k);
        _mm_storeu_si128((__m128i *)(to + WORD * k), substituted(before, y));
        before = y;
    }
}

/* Not taken apart for the cipher's one size, which made it slower. */
__attribute__((noipa)) static void rounds(uint8_t *s, size_t n, unsigned k)
{
    uint8_t room[2][ROOM], *from = room[0], *to = room[1], *other;
    size_t words = (n + WORD - 1) / WORD;
    memcpy(to, s, STATE);
    pass(to, from, words, leader[0], load);
    for (unsigned i = 1; i < k; i++) {
        memcpy(from + n, from, 8); /* seven are read, and eight are one move */
        pass(from, to, words, leader[i], gathered);
        other = from;
        from = to;
        to = other;
    }
    memcpy(s, from, n);
}
