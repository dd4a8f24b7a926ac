/* Times the proved library beside C, in one run.
   bench                 a table: nanoseconds an operation for each version, the best of many repeats in turn, and ours divided by each
   bench one WORK WHO N  N operations of one work by one version, for counting instructions (digests of 1,024 bytes, not 65,536)
   bench works           the names of the works */
#include "plain.h"
#include "../include/lubdhvani.h"
#include <stdio.h>
#include <stdlib.h>
#include <string.h>
#include <time.h>

enum { OURS, SSE2, PLANES, BITS, WRAP, MOD, VERSIONS };
static const char *const version_name[VERSIONS] = {"ours", "sse2", "planes", "bits", "wrap", "mod"};

/* The smallest state is the cipher's and hash instance 1's. The associated data of a line is the font's field: tag, length, digest. */
enum { LEAST = 2, REPEATS = 1000, MARK = 0x7E, SMALLEST_STATE = 29, FONT_FIELD = 3 + LUBDHVANI_DIGEST };

/* Nanoseconds of a repeat, and of all repeats of a work. */
static const double REPEAT = 3e5, LONGEST = 4e9;

static uint8_t message[LUBDHVANI_LONGEST_INPUT], out[LUBDHVANI_LONGEST_INPUT], stream[LUBDHVANI_LONGEST_INPUT];
static uint8_t key[LUBDHVANI_LONGEST_KEY], nonce[LUBDHVANI_LONGEST_NONCE], font[LUBDHVANI_DIGEST], seal[LUBDHVANI_SEAL], line[LUBDHVANI_LONGEST_LINE];
static size_t stream_length, digested = sizeof message;

typedef void permutes(uint8_t *, size_t);
typedef void digests(unsigned, const uint8_t *, size_t, uint8_t *);
typedef void seals(unsigned, const uint8_t *, const uint8_t *, const uint8_t *, size_t, const uint8_t *, size_t, uint8_t *, uint8_t[16]);

/* Key and nonce of the cipher's instances in bytes. */
static const size_t key_of[LUBDHVANI_CIPHERS] = {16, 16, 16, 16, 32, 32}, nonce_of[LUBDHVANI_CIPHERS] = {12, 12, 12, 16, 12, 16};

static void ours_permute(uint8_t *s, size_t n) { lubdhvani_permute(s, n, LUBDHVANI_ROUNDS); }
static void ours_digest(unsigned instance, const uint8_t *m, size_t length, uint8_t *to)
{
    lubdhvani_digest(instance, m, length, to, LUBDHVANI_DIGEST);
}
static void ours_seal(unsigned i, const uint8_t *k, const uint8_t *n, const uint8_t *a, size_t alen, const uint8_t *m, size_t mlen,
                      uint8_t *to, uint8_t t[16])
{
    lubdhvani_seal(i, k, key_of[i - 1], n, nonce_of[i - 1], a, alen, m, mlen, to, mlen, t, LUBDHVANI_SEAL);
}

static permutes *const permute_by[VERSIONS] = {ours_permute,       plain_sse2_permute, plain_planes_permute,
                                               plain_bits_permute, plain_wrap_permute, plain_mod_permute};
static digests *const digest_by[VERSIONS] = {ours_digest,       plain_sse2_digest, plain_planes_digest,
                                             plain_bits_digest, plain_wrap_digest, plain_mod_digest};
static seals *const seal_by[VERSIONS] = {ours_seal, plain_sse2_seal, plain_planes_seal, plain_bits_seal, plain_wrap_seal, plain_mod_seal};

static void permute(int who, size_t size)
{
    static uint8_t state[LUBDHVANI_LARGEST_STATE];
    permute_by[who](state, size);
}
static void digest(int who, unsigned instance) { digest_by[who](instance, message, digested, out); }
static void seal_text(int who, unsigned instance, size_t length)
{
    seal_by[who](instance, key, nonce, message, FONT_FIELD, message, length, out, seal);
}

static void permute_smallest(int who) { permute(who, SMALLEST_STATE); }
static void permute_36(int who) { permute(who, 36); }
static void permute_40(int who) { permute(who, 40); }
static void permute_48(int who) { permute(who, 48); }
static void permute_64(int who) { permute(who, 64); }
static void permute_68(int who) { permute(who, 68); }
static void permute_largest(int who) { permute(who, LUBDHVANI_LARGEST_STATE); }
static void digest_1(int who) { digest(who, 1); }
static void digest_8(int who) { digest(who, 8); }
static void seal_line(int who) { seal_text(who, 1, LUBDHVANI_LONGEST_LINE); }
static void seal_longest_1(int who) { seal_text(who, 1, LUBDHVANI_LONGEST_TEXT); }
static void seal_longest_2(int who) { seal_text(who, 2, LUBDHVANI_LONGEST_TEXT); }
static void seal_longest_3(int who) { seal_text(who, 3, LUBDHVANI_LONGEST_TEXT); }
static void seal_longest_4(int who) { seal_text(who, 4, LUBDHVANI_LONGEST_TEXT); }
static void seal_longest_5(int who) { seal_text(who, 5, LUBDHVANI_LONGEST_TEXT); }
static void seal_longest_6(int who) { seal_text(who, 6, LUBDHVANI_LONGEST_TEXT); }

static const struct {
    const char *name;
    void (*run)(int who);
} work[] = {{"permute-29", permute_smallest}, {"permute-36", permute_36},      {"permute-40", permute_40},
            {"permute-48", permute_48},       {"permute-64", permute_64},      {"permute-68", permute_68},
            {"permute-72", permute_largest},  {"digest-1", digest_1},          {"digest-8", digest_8},
            {"seal-65", seal_line},           {"seal-4096-1", seal_longest_1}, {"seal-4096-2", seal_longest_2},
            {"seal-4096-3", seal_longest_3},  {"seal-4096-4", seal_longest_4}, {"seal-4096-5", seal_longest_5},
            {"seal-4096-6", seal_longest_6}};
enum { WORKS = sizeof work / sizeof work[0] };

static double now(void)
{
    struct timespec t;
    clock_gettime(CLOCK_MONOTONIC, &t);
    return (double)t.tv_sec * 1e9 + (double)t.tv_nsec;
}

/* Nanoseconds of each of n operations in a row. */
static double repeated(void (*run)(int), int who, long n)
{
    double start = now();
    for (long i = 0; i < n; i++)
        run(who);
    return (now() - start) / (double)n;
}

/* As many operations as take some tenths of a millisecond, so that a repeat is seldom disturbed. */
static long enough(void (*run)(int), int who) { return 1 + (long)(REPEAT / repeated(run, who, 1)); }

/* Whether to go on after so many repeats: there are many, but those of long operations end after some seconds. */
static int more(int repeats, double since) { return repeats < LEAST || (repeats < REPEATS && now() - since < LONGEST); }

/* Nanoseconds an operation: the best of the repeats. */
static double timed(void (*run)(int), int who)
{
    long n = enough(run, who);
    double since = now(), best = repeated(run, who, n), took;
    for (int again = 0; more(again, since); again++)
        if ((took = repeated(run, who, n)) < best)
            best = took;
    return best;
}

/* The same for all versions in turn, so that what disturbs the machine disturbs them alike. */
static void timed_all(void (*run)(int), double best[VERSIONS])
{
    long n[VERSIONS];
    double since = now(), took;
    for (int v = 0; v < VERSIONS; v++)
        best[v] = repeated(run, v, n[v] = enough(run, v));
    for (int again = 0; more(again / VERSIONS, since); again++)
        if ((took = repeated(run, again % VERSIONS, n[again % VERSIONS])) < best[again % VERSIONS])
            best[again % VERSIONS] = took;
}

enum kind { GOOD, DAMAGED, MARKS };

/* Good frames one after another, or each with one byte changed, up to a length. */
static void fill_frames(size_t length, enum kind kind)
{
    static const char order[] = "A123456789A 0123456789C 0000012345B";
    uint8_t frame[LUBDHVANI_FRAME];
    size_t at = 0;
    for (unsigned k = 0; at < length; k++) {
        nonce[0] = (uint8_t)k;
        nonce[1] = (uint8_t)(k >> 8);
        const size_t n = lubdhvani_write(key, LUBDHVANI_KEY, nonce, LUBDHVANI_NONCE, font, sizeof font, LUBDHVANI_LAYOUT_NEITHER,
                                         (const uint8_t *)order, sizeof order - 1, frame, sizeof frame)
                             .length;
        if (kind == DAMAGED)
            frame[n / 2] ^= 0x01;
        for (size_t i = 0; i < n && at < length; i++)
            stream[at++] = frame[i];
    }
}

static void read_all(int who)
{
    const struct lubdhvani_asked everything = {.editions = LUBDHVANI_EDITION_ONE, .allowed = LUBDHVANI_ALL_WORK};
    struct lubdhvani_reading reading = {0};
    (void)who;
    do
        reading = lubdhvani_read(stream, stream_length, reading.closing, key, LUBDHVANI_KEY, font, sizeof font, everything, line, sizeof line);
    while (reading.first < stream_length);
}

static void reading(const char *what, enum kind kind)
{
    printf("| reading %s |", what);
    for (size_t kib = 8; kib <= sizeof stream / 1024; kib *= 2) {
        stream_length = kib * 1024;
        if (kind == MARKS)
            memset(stream, MARK, stream_length);
        else
            fill_frames(stream_length, kind);
        printf(" %.1f |", timed(read_all, OURS) / (double)stream_length);
    }
    printf("\n");
}

static void print_works(void)
{
    for (int w = 0; w < WORKS; w++)
        puts(work[w].name);
}

static void run_one(const char *name, const char *who, long times)
{
    digested = 1024; /* enough for counting: the instructions of a digest grow with its blocks */
    for (int w = 0; w < WORKS; w++)
        for (int v = 0; v < VERSIONS; v++)
            if (strcmp(name, work[w].name) == 0 && strcmp(who, version_name[v]) == 0)
                for (long n = times; n > 0; n--)
                    work[w].run(v);
}

static void print_works_timed(void)
{
    printf("| ns | ours | SSE2 by hand | C in planes | bit formula | look-ups | look-ups, %% | ours / SSE2 | / planes | / formula | / look-ups | / %% |\n");
    printf("|---|---|---|---|---|---|---|---|---|---|---|---|\n");
    for (int w = 0; w < WORKS; w++) {
        double t[VERSIONS];
        timed_all(work[w].run, t);
        printf("| %s |", work[w].name);
        for (int v = 0; v < VERSIONS; v++)
            printf(" %.0f |", t[v]);
        for (int v = SSE2; v < VERSIONS; v++)
            printf(" %.2f |", t[OURS] / t[v]);
        printf("\n");
    }
}

static void print_tables(void)
{
    print_works_timed();
    printf("\n| ns a byte of a stream of | 8 KiB | 16 KiB | 32 KiB | 64 KiB |\n|---|---|---|---|---|\n");
    reading("good frames", GOOD);
    reading("damaged frames", DAMAGED);
    reading("marks only", MARKS);
}

int main(int count, char **word)
{
    for (size_t i = 0; i < sizeof message; i++)
        message[i] = (uint8_t)(7 * i);
    if (count == 2 && strcmp(word[1], "works") == 0)
        print_works();
    else if (count == 5 && strcmp(word[1], "one") == 0)
        run_one(word[2], word[3], atol(word[4]));
    else
        print_tables();
    return 0;
}
