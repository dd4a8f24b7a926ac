/* What the fuzzers share: a rule of the header, at which they stop where it does not hold, and the input that they are given. */
#ifndef FUZZ_GIVEN_H
#define FUZZ_GIVEN_H

#include <stddef.h>
#include <stdint.h>
#include <stdio.h>
#include <stdlib.h>

static inline void must(int holds, const char *what)
{
    if (!holds) {
        fprintf(stderr, "fuzz: this does not hold: %s\n", what);
        abort();
    }
}

/* The input, byte by byte; zeros where it has run out. */

static const uint8_t *input;
static size_t input_left;

static inline void give(const uint8_t *data, size_t size)
{
    input = data;
    input_left = size;
}

static inline uint8_t take(void)
{
    return input_left == 0 ? 0 : (input_left--, *input++);
}

static inline size_t take_two(void)
{
    size_t high = take();
    return high << 8 | take();
}

#endif
