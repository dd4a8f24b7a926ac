/* The running digest beside the digest in one call: 65,536 bytes fed in pieces of 1, 16, 512 and 65,536 bytes, at the smallest and at the
 * largest rate. With no words a table of times; `INSTANCE PIECE` does one of them once, piece 0 being the one call, for bench/running. */
#define _POSIX_C_SOURCE 199309L
#include "../include/lubdhvani.h"

#include <stdio.h>
#include <stdlib.h>
#include <string.h>
#include <time.h>

enum { RUNS = 5, PIECES = 4 };

static const size_t instances[] = {1, 8}, pieces[PIECES] = {1, 16, 512, LUBDHVANI_LONGEST_INPUT};
static uint8_t message[LUBDHVANI_LONGEST_INPUT], whole[LUBDHVANI_DIGEST], fed[LUBDHVANI_DIGEST];

static double now(void)
{
    struct timespec t;
    clock_gettime(CLOCK_PROCESS_CPUTIME_ID, &t);
    return (double)t.tv_sec * 1e3 + (double)t.tv_nsec / 1e6;
}

static void one_call(size_t instance)
{
    lubdhvani_digest(instance, message, sizeof message, whole, sizeof whole);
}

static void in_pieces(size_t instance, size_t piece)
{
    struct lubdhvani_running running = {0};
    lubdhvani_start(&running, instance);
    for (size_t at = 0; at < sizeof message; at += piece)
        lubdhvani_feed(&running, message + at, piece);
    lubdhvani_finish(&running, fed, sizeof fed);
}

static void digested(size_t instance, size_t piece)
{
    if (piece == 0)
        one_call(instance);
    else
        in_pieces(instance, piece);
}

/* The best of some runs, taken in turn so that a busy machine slows all alike; the one call first. */
static void best(size_t instance, double times[PIECES + 1])
{
    for (int i = 0; i <= PIECES; i++)
        times[i] = 1e9;
    for (int run = 0; run < RUNS; run++)
        for (int i = 0; i <= PIECES; i++) {
            double start = now();
            digested(instance, i == 0 ? 0 : pieces[i - 1]);
            double took = now() - start;
            times[i] = took < times[i] ? took : times[i];
        }
}

static void table(void)
{
    printf("\n| digest of 65,536 bytes | milliseconds | of the one call's |\n|---|---|---|\n");
    for (size_t k = 0; k < sizeof instances / sizeof instances[0]; k++) {
        double times[PIECES + 1];
        best(instances[k], times);
        printf("| instance %zu, one call | %.1f | 1.000 |\n", instances[k], times[0]);
        for (int i = 0; i < PIECES; i++)
            printf("| instance %zu, pieces of %zu | %.1f | %.3f |\n", instances[k], pieces[i], times[i + 1], times[i + 1] / times[0]);
    }
}

int main(int words, char **word)
{
    for (size_t i = 0; i < sizeof message; i++)
        message[i] = (uint8_t)(7 * i);
    if (words == 3)
        digested(strtoul(word[1], NULL, 10), strtoul(word[2], NULL, 10));
    else
        table();
    return 0;
}
