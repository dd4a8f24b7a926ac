/* What an index costs (order W10): brought up to date after each of 500 frames arrives, against a fresh build each time. Prints the nanoseconds of both and
   their ratio; the status is 1 where the two tables are not the same. */
#define _POSIX_C_SOURCE 199309L
#include "../include/lubdhvani.h"
#include <stdio.h>
#include <string.h>
#include <time.h>

enum { FRAMES = 500 };

static const uint8_t key[LUBDHVANI_KEY] = "the press's key", font[LUBDHVANI_DIGEST] = "fourteen characters";
static const uint8_t order[] = "A123456789A 0123456789C 0000012345B";
static uint8_t stream[LUBDHVANI_LONGEST_INPUT];
static size_t ends[FRAMES];

static double now(void)
{
    struct timespec t;
    clock_gettime(CLOCK_MONOTONIC, &t);
    return (double)t.tv_sec * 1e9 + (double)t.tv_nsec;
}

/* The stream, and where each of its frames ends. */
static int compose(void)
{
    uint8_t nonce[LUBDHVANI_NONCE] = {0}, frame[LUBDHVANI_FRAME];
    size_t at = 0;
    for (unsigned k = 0; k < FRAMES; k++) {
        nonce[0] = (uint8_t)k;
        nonce[1] = (uint8_t)(k >> 8);
        const struct lubdhvani_framed f = lubdhvani_write(key, sizeof key, nonce, sizeof nonce, font, sizeof font, LUBDHVANI_LAYOUT_NEITHER, order,
                                                          sizeof order - 1, frame, sizeof frame);
        if (f.number != LUBDHVANI_DONE || at + f.length > sizeof stream)
            return 0;
        memcpy(stream + at, frame, f.length);
        ends[k] = at += f.length;
    }
    return 1;
}

/* Nanoseconds of an index after each frame: from the one before, or anew. */
static double indexed(uint32_t table[LUBDHVANI_INDEX], int anew)
{
    struct lubdhvani_indexed up = {0};
    const double start = now();
    for (unsigned k = 0; k < FRAMES; k++)
        up = lubdhvani_index_update(stream, ends[k], key, sizeof key, font, sizeof font, LUBDHVANI_EDITION_ONE, LUBDHVANI_LAYOUT_NEITHER, table,
                                    LUBDHVANI_INDEX, anew ? 0 : up.count);
    return up.number == LUBDHVANI_DONE && up.count == FRAMES ? now() - start : 0;
}

int main(void)
{
    static uint32_t updated[LUBDHVANI_INDEX], fresh[LUBDHVANI_INDEX];
    if (!compose())
        return 1;
    const double one = indexed(updated, 0), other = indexed(fresh, 1);
    if (one == 0 || other == 0 || memcmp(updated, fresh, sizeof updated) != 0)
        return 1;
    printf("index: after each of %d frames, brought up to date %.0f us, built anew %.0f us, %.0f times as long\n", FRAMES, one / 1e3, other / 1e3,
           other / one);
    return 0;
}
