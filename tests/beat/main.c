/* beat LENGTH EDITION: writes the frame of a line of so many digits to standard output. beat LENGTH EDITION ALLOWED: reads the frame on standard input with
 * so many calls of the permutation allowed, and prints the number and the calls reported; tests/beat/run counts under callgrind the calls that were made. beat index FRAMES: the
 * stream is so many times the frame on standard input, and an index of all but the last is brought up to date; prints the number and the count. beat replay
 * REQUESTS: a trace receives the frame on standard input with a seal that is not its own, and asks so many times; prints the number and the event. */
#include "lubdhvani.h"

#include <stdio.h>
#include <stdlib.h>
#include <string.h>

static const uint8_t key[LUBDHVANI_KEY] = "the press's key", nonce[LUBDHVANI_NONCE] = "never again", job[LUBDHVANI_JOB] = "job";
static const uint8_t font[LUBDHVANI_DIGEST] = "fourteen characters";

static int write_frame(size_t length, int two)
{
    uint8_t line[LUBDHVANI_LONGEST_LINE], frame[LUBDHVANI_FRAME_TWO];
    memset(line, '7', sizeof line);
    const struct lubdhvani_framed f =
        two ? lubdhvani_write_two(key, sizeof key, nonce, sizeof nonce, font, sizeof font, LUBDHVANI_LAYOUT_NEITHER, job, sizeof job, line, length,
                                  frame, sizeof frame)
            : lubdhvani_write(key, sizeof key, nonce, sizeof nonce, font, sizeof font, LUBDHVANI_LAYOUT_NEITHER, line, length, frame,
                              sizeof frame);
    return f.number != LUBDHVANI_DONE || fwrite(frame, 1, f.length, stdout) != f.length;
}

static int read_frame(size_t allowed)
{
    const struct lubdhvani_asked asked = {.editions = LUBDHVANI_BOTH_EDITIONS, .allowed = allowed};
    uint8_t frame[LUBDHVANI_FRAME_TWO], given[LUBDHVANI_LONGEST_LINE];
    size_t length = fread(frame, 1, sizeof frame, stdin);
    const struct lubdhvani_reading r =
        lubdhvani_read(frame, length, 0, key, sizeof key, font, sizeof font, asked, given, sizeof given);
    printf("%zu %zu\n", r.number, r.calls);
    return 0;
}

/* Brings up to date an index that was built from all but the last of so many frames, each the one on standard input. The index is worked out here, so that
 * the one call of the library is the update. */
static int update_index(size_t frames)
{
    static uint8_t stream[LUBDHVANI_LONGEST_INPUT];
    static uint32_t table[LUBDHVANI_INDEX];
    const size_t length = fread(stream, 1, LUBDHVANI_FRAME_TWO, stdin);
    if (frames == 0 || frames > LUBDHVANI_INDEX || frames * length > sizeof stream)
        return 1;
    for (size_t k = 0; k < frames; k++) {
        memmove(stream + k * length, stream, length);
        table[k] = (uint32_t)(k * length + 1) * 256;
    }
    const struct lubdhvani_indexed up = lubdhvani_index_update(stream, frames * length, key, sizeof key, font, sizeof font, LUBDHVANI_BOTH_EDITIONS,
                                                              LUBDHVANI_LAYOUT_NEITHER, table, LUBDHVANI_INDEX, frames - 1);
    printf("%zu %zu\n", up.number, up.count);
    return 0;
}

/* Replays a trace: the frame on standard input received with the last byte of its seal changed, which stands before the closing mark, then so many
 * requests. */
static int replay_requests(size_t requests)
{
    static uint8_t trace[LUBDHVANI_LONGEST_INPUT], stream[LUBDHVANI_LONGEST_INPUT];
    const size_t length = fread(trace + 3, 1, LUBDHVANI_FRAME_TWO, stdin);
    size_t n = 3 + length;
    if (length < 2 || n + 3 * requests > sizeof trace)
        return 1;
    trace[0] = LUBDHVANI_RECEIVED;
    trace[1] = (uint8_t)(length / 256);
    trace[2] = (uint8_t)(length % 256);
    trace[n - 2] ^= 1;
    for (size_t k = 0; k < requests; k++, n += 3)
        trace[n] = LUBDHVANI_ASKED_FOR;
    const struct lubdhvani_replayed r = lubdhvani_replay(trace, n, key, sizeof key, font, sizeof font, LUBDHVANI_BOTH_EDITIONS, LUBDHVANI_LAYOUT_NEITHER,
                                                         stream, sizeof stream);
    printf("%zu %zu\n", r.number, r.event);
    return 0;
}

int main(int argc, char **argv)
{
    if (argc == 3 && strcmp(argv[1], "index") == 0)
        return update_index(strtoul(argv[2], NULL, 10));
    if (argc == 3 && strcmp(argv[1], "replay") == 0)
        return replay_requests(strtoul(argv[2], NULL, 10));
    if (argc < 3)
        return 1;
    return argc == 3 ? write_frame(strtoul(argv[1], NULL, 10), argv[2][0] == '2') : read_frame(strtoul(argv[3], NULL, 10));
}
