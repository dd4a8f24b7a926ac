/* A fuzzer for the permutation and its inverse at rounds of a caller's choosing, over include/lubdhvani.h (libFuzzer). An input is a size, a
 * count of rounds and a state. Every answer is held to the header, and a state to the permutation worked out here cell by cell and bit by bit
 * from the papers: the leaders by their register, not from their table. */
#define _DEFAULT_SOURCE
#include "given.h"
#include "lubdhvani.h"

#include <string.h>
#include <sys/mman.h>

/* MOST is the longest state made here, UNTOUCHED what stands before it. */
enum { PAGE = 4096, MOST = 300, UNTOUCHED = 0xA5, SIZES = 10, CELLS = 4 };

static const size_t sizes[SIZES] = {29, 30, 32, 34, 36, 40, 48, 64, 68, LUBDHVANI_LARGEST_STATE};

/* Document 01: the table x * y, and where elements 1 to 8 go, place 1 being the leftmost bit. */
static const uint8_t product[CELLS][CELLS] = {{1, 0, 3, 2}, {0, 2, 1, 3}, {2, 3, 0, 1}, {3, 1, 2, 0}};
static const unsigned places[8] = {1, 3, 5, 8, 7, 6, 2, 4};

/* The leader of round i, from 0, by order W9's rule. */
static uint8_t leader(size_t i)
{
    unsigned at = 0xAA, bit;
    for (size_t k = 0;; k++) {
        bit = at & 1;
        at = at >> 1 ^ (bit ? 0xB8 : 0);
        if (k == i)
            return (uint8_t)(2 * bit + i % 2);
    }
}

/* l * a0, a0 * a1, a1 * a2, .. */
static void substitute(uint8_t *state, size_t size, uint8_t before)
{
    for (size_t i = 0; i < size; i++) {
        uint8_t made = 0;
        for (int shift = 6; shift >= 0; shift -= 2) {
            const uint8_t cell = state[i] >> shift & 3;
            made |= (uint8_t)(product[before][cell] << shift);
            before = cell;
        }
        state[i] = made;
    }
}

/* Element j + 1 of byte i is bit 7 - j, from the left, of byte i + j, around. */
static void shuffle(uint8_t *state, size_t size)
{
    uint8_t made[LUBDHVANI_LARGEST_STATE] = {0};
    for (size_t i = 0; i < size; i++)
        for (size_t j = 0; j < 8; j++)
            made[i] |= (uint8_t)((state[(i + j) % size] >> j & 1) << (8 - places[j]));
    memcpy(state, made, size);
}

static void permuted(uint8_t *state, size_t size, size_t rounds)
{
    substitute(state, size, leader(0));
    for (size_t i = 1; i < rounds; i++) {
        shuffle(state, size);
        substitute(state, size, leader(i));
    }
}

static uint32_t number(size_t size, size_t rounds)
{
    for (size_t i = 0; i < SIZES; i++)
        if (sizes[i] == size)
            return rounds >= 1 && rounds <= LUBDHVANI_MOST_ROUNDS ? LUBDHVANI_DONE : LUBDHVANI_NO_ROUNDS;
    return LUBDHVANI_UNKNOWN;
}

typedef uint32_t call(uint8_t *, size_t, size_t);

/* One call on a state that stands just before a page that can't be touched: its number, and nothing before the state is changed. */
static void called(call *by, uint8_t *ground, size_t size, size_t rounds)
{
    must(by(ground + PAGE - size, size, rounds) == number(size, rounds), "the number is the header's");
    for (size_t i = 0; i < PAGE - size; i++)
        must(ground[i] == UNTOUCHED, "what stands before the state is as it was");
}

/* Both ways round: done, each undoes the other, and there is the permutation of the papers; refused, the state stays. */
static void tried(const uint8_t *state, size_t size, size_t rounds)
{
    static uint8_t *ground;
    if (ground == NULL) {
        ground = mmap(NULL, 2 * PAGE, PROT_READ | PROT_WRITE, MAP_PRIVATE | MAP_ANONYMOUS, -1, 0);
        must(ground != MAP_FAILED && mprotect(ground + PAGE, PAGE, PROT_NONE) == 0, "there is memory");
    }
    uint8_t *at = ground + PAGE - size, expected[MOST];
    memset(ground, UNTOUCHED, PAGE);
    memcpy(at, state, size);
    memcpy(expected, state, size);
    if (number(size, rounds) == LUBDHVANI_DONE)
        permuted(expected, size, rounds);
    called(lubdhvani_permute, ground, size, rounds);
    must(memcmp(at, expected, size) == 0, "the state is the papers', or as it was");
    called(lubdhvani_unpermute, ground, size, rounds);
    must(memcmp(at, state, size) == 0, "the inverse gives the state back");
    called(lubdhvani_unpermute, ground, size, rounds);
    called(lubdhvani_permute, ground, size, rounds);
    must(memcmp(at, state, size) == 0, "the permutation undoes its inverse");
}

int LLVMFuzzerTestOneInput(const uint8_t *data, size_t length)
{
    uint8_t head[12] = {0}, state[MOST] = {0};
    const size_t headed = length < sizeof head ? length : sizeof head;
    memcpy(head, data, headed);
    memcpy(state, data + headed, length - headed < MOST ? length - headed : MOST);

    /* any count of rounds, one that a byte holds, one at the bound, or one around which planes are drawn out anew */
    size_t rounds;
    memcpy(&rounds, head + 4, sizeof rounds);
    if (head[0] & 1)
        rounds = head[0] & 2 ? head[4] : LUBDHVANI_MOST_ROUNDS - 1 + head[4] % 4u;
    if (head[0] & 4)
        rounds = 1 + head[4] % 12u;
    /* a permitted size, or any up to the longest */
    const size_t size = head[1] & 3 ? sizes[head[2] % SIZES] : (head[2] + 256u * head[3]) % (MOST + 1);
    tried(state, size, rounds);
    return 0;
}
