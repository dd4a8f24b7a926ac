/* The rework desk of Lubdhvani, for C: a second product above the library. Spoiled forms are reprinted at a desk of its own: from a stream, its index
 * and a list of entry numbers it writes a new stream with those frames, in the asked order.
 *
 * The call takes every input and returns: nothing traps, allocates or keeps a pointer. It is proved to do what is said here (docs/PROMISES.md); the
 * numbers are document 01's and order W14's. A pointer is to as many bytes, or entries, as the length behind it says; with a length of 0 it may be
 * anything, NULL included. The output overlaps no other argument.
 *
 * It has no state of its own, so that calls on different buffers may run at the same time, and runs in LUBDHVANI_DESK_STACK bytes of stack on x86-64, which
 * is measured, not proved: tests/stack/run. The key and the states that it works with are not wiped from the stack.
 *
 * Link with target/staticlib/liblubdhvani_desk.a, which tests/archives makes: alone, or beside liblubdhvani.a in either order. No symbol
 * stands in both.
 */
#ifndef LUBDHVANI_DESK_H
#define LUBDHVANI_DESK_H

#include <stddef.h>
#include <stdint.h>

#ifdef __cplusplus
extern "C" {
#endif

enum { LUBDHVANI_DESK_STACK = 32768 };

/* The numbers. */
enum {
    LUBDHVANI_DESK_DONE = 0,
    LUBDHVANI_DESK_SIZES = 2,     /* key or font digest not of their sizes, 16 and 32 */
    LUBDHVANI_DESK_TOO_LONG = 3,  /* a stream over 65,536 bytes: the one given, or the new one */
    LUBDHVANI_DESK_NO_ROOM = 4,   /* a table under 512 entries, or an output shorter than the new stream */
    LUBDHVANI_DESK_TOO_MANY = 19, /* a count over 512 */
    LUBDHVANI_DESK_PAST = 23,     /* an entry number past the index */
    LUBDHVANI_DESK_NO_LINE = 24   /* an entry whose place doesn't start a stretch that reads as a line */
};

/* What the desk answers: no padding, and each field is set at every call. */
struct lubdhvani_desk_reworked {
    size_t number;
    size_t length; /* of the new stream; 0 on a refusal */
    size_t item;   /* for 23 and 24 the item of the list at fault, counted from 1; else 0 */
};

/* Copies the frames that the list names, by entry numbers from 0 on, from the stream to the start of out, each between marks of its own, also where two
 * frames shared one. An entry asked for twice is copied twice; an empty list gives an empty stream. The table, of count entries, only says where to
 * look: the stream is read anew at each entry's place, under these editions and this layout (numbers of lubdhvani.h) and with all the work it takes, so
 * that an index of another stream can't put on paper a line this one lacks. The table's own numbers are not looked at.
 * 0: out[0..length] is the new stream, and the rest of out is as it was. lubdhvani_read over it gives exactly the chosen lines in the asked order.
 * Refusals in their order: 2, 3, 4 (a table under 512 entries), 19 (count over 512); then item by item 23, 24, of which the first item at fault decides;
 * then 3 for a new stream over 65,536 bytes, and 4 for an output shorter than it. On a refusal out is untouched. */
struct lubdhvani_desk_reworked lubdhvani_desk_copy(const uint8_t *stream, size_t stream_length, const uint8_t *key, size_t key_length,
                                                   const uint8_t *font, size_t font_length, size_t editions, size_t layout,
                                                   const uint32_t *table, size_t entries, size_t count, const uint32_t *list,
                                                   size_t list_length, uint8_t *out, size_t room);

#if defined(__STDC_VERSION__) && __STDC_VERSION__ >= 201112L
_Static_assert(sizeof(struct lubdhvani_desk_reworked) == 3 * sizeof(size_t), "no padding");
#endif

#ifdef __cplusplus
}
#endif

#endif
