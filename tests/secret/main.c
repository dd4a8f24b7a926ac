/* Calls of the static library with secret bytes marked undefined, to run under valgrind's memcheck: it reports every branch and every address
   that depends on them. Each call's output must still be undefined afterwards, so that the test is not empty.
   secret work     permute and unpermute at every size, digest and running digest at every instance, seal
   secret write    write and write_two with a secret key
   secret open     open with a secret key at every instance, under a seal that is not the one worked out
   secret lookup   the permutation of lookup.c, which looks products up */
#include "../../include/lubdhvani.h"
#include "lookup.h"
#include <stdio.h>
#include <string.h>
#include <valgrind/memcheck.h>

enum { MESSAGE = 40, ASSOCIATED = 35, LINE = 20 };

static int failed;

static void secret(uint8_t *bytes, size_t n) { (void)VALGRIND_MAKE_MEM_UNDEFINED(bytes, n); }

/* Every byte of an output depends on the secret; then it is made public. */
static void given(const char *what, size_t which, uint8_t *bytes, size_t n)
{
    uint8_t undefined[LUBDHVANI_FRAME];
    int got = (int)VALGRIND_GET_VBITS(bytes, undefined, n);
    size_t some = 0;
    (void)VALGRIND_MAKE_MEM_DEFINED(undefined, n);
    for (size_t i = 0; i < n; i++)
        some += undefined[i] != 0;
    (void)VALGRIND_MAKE_MEM_DEFINED(bytes, n);
    if (got != 1 || some != n) {
        printf("secret: %s %zu: %zu of %zu bytes are undefined\n", what, which, some, n);
        failed = 1;
    }
}

static void permutations(void)
{
    static const size_t size[] = {29, 30, 32, 34, 36, 40, 48, 64, 68, 72};
    uint8_t state[LUBDHVANI_LARGEST_STATE] = {0};
    for (size_t i = 0; i < sizeof size / sizeof size[0]; i++) {
        secret(state, size[i]);
        failed |= lubdhvani_permute(state, size[i], LUBDHVANI_MOST_ROUNDS) != LUBDHVANI_DONE;
        given("permute", size[i], state, size[i]);
        secret(state, size[i]);
        failed |= lubdhvani_unpermute(state, size[i], LUBDHVANI_MOST_ROUNDS) != LUBDHVANI_DONE;
        given("unpermute", size[i], state, size[i]);
    }
}

static void digests(void)
{
    uint8_t message[MESSAGE] = {0}, out[LUBDHVANI_DIGEST];
    for (size_t i = 1; i <= LUBDHVANI_INSTANCES; i++) {
        secret(message, sizeof message);
        failed |= lubdhvani_digest(i, message, sizeof message, out, sizeof out).number != LUBDHVANI_DONE;
        given("digest", i, out, sizeof out);
    }
}

/* In two pieces, neither of whole blocks. What a record holds of the message is secret then; what is tested in it is not. */
static void running_digests(void)
{
    enum { FIRST = 17 };
    uint8_t message[MESSAGE] = {0}, out[LUBDHVANI_DIGEST];
    for (size_t i = 1; i <= LUBDHVANI_INSTANCES; i++) {
        struct lubdhvani_running running = {0};
        secret(message, sizeof message);
        failed |= lubdhvani_start(&running, i) != LUBDHVANI_DONE;
        failed |= lubdhvani_feed(&running, message, FIRST) != LUBDHVANI_DONE;
        failed |= lubdhvani_feed(&running, message + FIRST, sizeof message - FIRST) != LUBDHVANI_DONE;
        failed |= lubdhvani_finish(&running, out, sizeof out).number != LUBDHVANI_DONE;
        given("running digest", i, out, sizeof out);
    }
}

/* Key and nonce of the cipher's instances in bytes. */
static const size_t key_of[LUBDHVANI_CIPHERS] = {16, 16, 16, 16, 32, 32}, nonce_of[LUBDHVANI_CIPHERS] = {12, 12, 12, 16, 12, 16};

static void seals(void)
{
    uint8_t key[LUBDHVANI_LONGEST_KEY] = {0}, nonce[LUBDHVANI_LONGEST_NONCE] = {0}, associated[ASSOCIATED] = {0}, message[MESSAGE] = {0};
    uint8_t out[MESSAGE], seal[LUBDHVANI_SEAL];
    for (size_t i = 1; i <= LUBDHVANI_CIPHERS; i++) {
        secret(key, sizeof key);
        secret(message, sizeof message);
        failed |= lubdhvani_seal(i, key, key_of[i - 1], nonce, nonce_of[i - 1], associated, sizeof associated, message, sizeof message, out,
                                 sizeof out, seal, sizeof seal)
                      .number
                  != LUBDHVANI_DONE;
        given("ciphertext, instance", i, out, sizeof out);
        given("seal, instance", i, seal, sizeof seal);
    }
}

static void writes(void)
{
    static const uint8_t line[LINE + 1] = "012345 678C 0000125B";
    uint8_t key[LUBDHVANI_KEY] = {0}, nonce[LUBDHVANI_NONCE] = {0}, font[LUBDHVANI_DIGEST] = {0}, job[LUBDHVANI_JOB] = {0};
    uint8_t frame[LUBDHVANI_FRAME_TWO] = {0};
    secret(key, sizeof key);
    failed |= lubdhvani_write(key, sizeof key, nonce, sizeof nonce, font, sizeof font, LUBDHVANI_LAYOUT_NEITHER, line, LINE, frame,
                              sizeof frame)
                  .number
              != LUBDHVANI_DONE;
    failed |= lubdhvani_write_two(key, sizeof key, nonce, sizeof nonce, font, sizeof font, LUBDHVANI_LAYOUT_NEITHER, job, sizeof job, line,
                                  LINE, frame, sizeof frame)
                  .number
              != LUBDHVANI_DONE;
}

/* That the seal is wrong is told, so it is public, and nothing else is: the answer is made public, and the buffer is zero, which no secret says. */
static void opens(void)
{
    uint8_t key[LUBDHVANI_LONGEST_KEY] = {0}, nonce[LUBDHVANI_LONGEST_NONCE] = {0}, associated[ASSOCIATED] = {0}, cipher[MESSAGE] = {0};
    uint8_t out[MESSAGE], seal[LUBDHVANI_SEAL] = {0}, undefined[MESSAGE];
    for (size_t i = 1; i <= LUBDHVANI_CIPHERS; i++) {
        secret(key, sizeof key);
        struct lubdhvani_counted opened = lubdhvani_open(i, key, key_of[i - 1], nonce, nonce_of[i - 1], associated, sizeof associated, cipher,
                                                         sizeof cipher, seal, sizeof seal, out, sizeof out);
        (void)VALGRIND_MAKE_MEM_DEFINED(&opened, sizeof opened);
        failed |= opened.number != LUBDHVANI_BAD_SEAL;
        failed |= VALGRIND_GET_VBITS(out, undefined, sizeof out) != 1;
        for (size_t k = 0; k < sizeof out; k++)
            failed |= undefined[k] != 0 || out[k] != 0;
    }
}

static void looked_up(void)
{
    uint8_t state[LUBDHVANI_LARGEST_STATE] = {0};
    secret(state, sizeof state);
    lookup_permute(state, sizeof state);
}

int main(int count, char **word)
{
    if (RUNNING_ON_VALGRIND == 0 || count != 2) {
        puts("secret: to be run under valgrind, with one word");
        return 1;
    }
    if (strcmp(word[1], "work") == 0) {
        permutations();
        digests();
        running_digests();
        seals();
    } else if (strcmp(word[1], "write") == 0)
        writes();
    else if (strcmp(word[1], "open") == 0)
        opens();
    else
        looked_up();
    return failed;
}
