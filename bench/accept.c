/* A stream of 512 frames, by turns of either edition, with nonces that count up: `accept read` reads all its stretches, `accept accept` accepts it. For
 * counting instructions of the two in one run of bench/accept. */
#include "../include/lubdhvani.h"
#include <stdio.h>
#include <string.h>

int main(int words, char **word)
{
    static uint8_t stream[LUBDHVANI_LONGEST_INPUT];
    static const uint8_t key[LUBDHVANI_KEY], font[LUBDHVANI_DIGEST], job[LUBDHVANI_JOB], line[] = "7";
    const struct lubdhvani_asked asked = {.editions = LUBDHVANI_BOTH_EDITIONS, .allowed = LUBDHVANI_ALL_WORK};
    uint8_t nonce[LUBDHVANI_NONCE] = {0}, read[LUBDHVANI_LONGEST_LINE];
    size_t length = 0, lines = 0;

    for (size_t i = 0; i < LUBDHVANI_MOST_STRETCHES; i++) {
        nonce[10] = (uint8_t)(i / 256);
        nonce[11] = (uint8_t)i;
        length += (i % 2 ? lubdhvani_write_two(key, sizeof key, nonce, sizeof nonce, font, sizeof font, LUBDHVANI_LAYOUT_NEITHER, job, sizeof job, line,
                                               sizeof line - 1, stream + length, sizeof stream - length)
                         : lubdhvani_write(key, sizeof key, nonce, sizeof nonce, font, sizeof font, LUBDHVANI_LAYOUT_NEITHER, line, sizeof line - 1,
                                           stream + length, sizeof stream - length))
                      .length;
    }
    if (words == 2 && strcmp(word[1], "accept") == 0)
        return (int)lubdhvani_accept(stream, length, key, sizeof key, font, sizeof font, asked.editions, asked.layout).number;
    if (words == 2 && strcmp(word[1], "read") == 0) {
        struct lubdhvani_reading r = {0};
        while ((r = lubdhvani_read(stream, length, r.closing, key, sizeof key, font, sizeof font, asked, read, sizeof read)).outcome == LUBDHVANI_LINE)
            lines++;
        return lines != LUBDHVANI_MOST_STRETCHES;
    }
    return 0;
}
