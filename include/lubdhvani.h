/* Lubdhvani: the seal software of a cheque composer, for C.
 *
 * GAGE digests the font, InGAGE seals each magnetic-ink line to that digest, and a framed job stream brings sealed lines to the
 * press. Every call takes every input and returns: nothing traps, allocates or keeps a pointer. Each call is proved to do what
 * is said here (docs/PROMISES.md); the numbers, their order and the sizes are document 01's, the buyer's scope.
 *
 * Rules for every call
 *  - A pointer is to as many bytes as the length behind it says, readable, or writable where it is not const. With a length of 0 the
 *    pointer may be anything, NULL included.
 *  - Buffers that are written overlap no other argument of the call.
 *  - A call that answers a number alone returns it as a uint32_t. Every other call returns a struct by value, whose numbers are size_t (lubdhvani_nonce's is
 *    a uint32_t): it has no padding, and each field is set at every call. The field `number` is one of the numbers below; lubdhvani_next_stretch, lubdhvani_bundle_name,
 *    lubdhvani_bundle_rows and the look-ups in an index refuse nothing and answer places alone. `calls` are counts of calls of the permutation.
 *  - Refusals are tested in an order, and the first that holds is given:
 *      permute, unpermute           1, 18
 *      digest                       1, 3, 4
 *      start / feed / finish        1 / 14, 1, 3 / 14, 1, 4
 *      seal / open                  1, 2, 3, 4 / 1, 2, 3, 4, 5
 *      write, write_two             2, 3, 9, 13, 17, 4
 *      read, next                   2, 3, 4, 10, then the stretch: 7 for its length, 6, 7 for its fields, 8, 15, 5, 9, 13, 17
 *      accept                       2, 3, 19, then stretch by stretch: the stretch's own as for read, but 15, then 22
 *      replay                       2, 4, then event by event: 20, 21 or 3
 *      stood                        2, 4
 *      to_one, to_two               2, 4, then the stretch: 7 for its length, 6, 7 for its fields, 16, 8, 5, 9, 13, 17
 *      bundle_write / _read / _digest   11, 12, 4 / 11, 12 / 3, 11, 12, 4
 *      index_update                 2, 3, 4, 19 for the count handed in, 10, 19 for the entries that there would be
 *  - The record of a running digest, and a walker, is never NULL, and is the caller's alone while the call runs.
 *  - Nothing is changed but what is named; the rest of a longer buffer stays as it was.
 *  - The library has no state of its own: calls on different buffers may run at the same time. Keys and states that a call works with are
 *    not wiped from the stack.
 *  - lubdhvani_read, lubdhvani_next, lubdhvani_to_one, lubdhvani_to_two, lubdhvani_index_update, lubdhvani_accept, lubdhvani_nonce, lubdhvani_replay
 *    and lubdhvani_stood, which read stretches, run in LUBDHVANI_STACK bytes of stack, every other call in LUBDHVANI_STACK_BUT_READ. This is measured,
 *    not proved: tests/stack/run runs each call on a painted stack, with memcpy and memset bound at their first call (the binding takes stack as well)
 *    and when the program starts, prints what was used and fails over these figures.
 *    Reading takes the most for a damaged stretch of the greatest length, which is measured byte by byte in calls of its own.
 *
 * Link with target/staticlib/liblubdhvani.a, which tests/archives makes.
 */
#ifndef LUBDHVANI_H
#define LUBDHVANI_H

#include <stddef.h>
#include <stdint.h>

/* The version of this header as one number: the first part times 10,000, the second times 100 and the third (20000 is 2.0.0). */
#define LUBDHVANI_VERSION 20000

#ifdef __cplusplus
extern "C" {
#endif

/* Sizes in bytes. */
enum {
    LUBDHVANI_LARGEST_STATE = 72,      /* permitted states: 29 30 32 34 36 40 48 64 68 72 */
    LUBDHVANI_ROUNDS = 32,             /* what the digest runs; the cipher runs these and, after each block, half of them */
    LUBDHVANI_MOST_ROUNDS = 255,       /* the permutation may be run at 1 to 255 rounds */
    LUBDHVANI_DIGEST = 32,             /* a digest, and the least room for one */
    LUBDHVANI_LONGEST_INPUT = 65536,   /* a message to digest, and a stream to read; also the least room for the stream of a replay */
    LUBDHVANI_KEY = 16,                /* key and nonce of cipher instance 1, by which frames are sealed; others' stand at lubdhvani_seal */
    LUBDHVANI_NONCE = 12,
    LUBDHVANI_SEAL = 16,               /* of every cipher instance */
    LUBDHVANI_LONGEST_ASSOCIATED = 1024,
    LUBDHVANI_LONGEST_TEXT = 4096,     /* a message to seal, and a ciphertext to open */
    LUBDHVANI_LONGEST_LINE = 65,       /* a line has 1 to 65 bytes; also the least room for a line */
    LUBDHVANI_FRAME = 276,             /* the least room for a frame of edition one */
    LUBDHVANI_FRAME_TWO = 290,         /* the least room for a frame of edition two */
    LUBDHVANI_JOB = 4,                 /* a job, which edition two has */
    LUBDHVANI_LONGEST_STRETCH = 288,   /* a longer one is refused with 7 */
    LUBDHVANI_ALL_WORK = 111,          /* calls of the permutation that are enough for every stretch: those of the longest line, in edition two */
    LUBDHVANI_MOST_STRETCHES = 512,    /* of a stream to accept */
    LUBDHVANI_LARGEST_BLOCK = 16,      /* the largest rate of a hash instance */
    LUBDHVANI_INSTANCES = 10,          /* hash instances are 1 to 10; fonts are digested with 1 */
    LUBDHVANI_CIPHERS = 6,             /* cipher instances are 1 to 6; frames are sealed with 1 */
    LUBDHVANI_LONGEST_KEY = 32,        /* of a cipher instance */
    LUBDHVANI_LONGEST_NONCE = 16,
    LUBDHVANI_LONGEST_NAME = 32,       /* the name of a bundle has 1 to 32 bytes */
    LUBDHVANI_GLYPHS = 14,             /* 0 to 9, A to D, in this order */
    LUBDHVANI_GLYPH_ROWS = 9,          /* a glyph's rows, of seven dots each; the top bit of a row is zero */
    LUBDHVANI_BUNDLE_ROWS = 126,       /* the rows of all glyphs */
    LUBDHVANI_BUNDLE = 217,            /* the longest bundle, and the least room for one */
    LUBDHVANI_INDEX = 512,             /* the most entries of an index, and the least room for one, in entries */
    LUBDHVANI_STACK = 32768,           /* what a call takes of the stack at most, on x86-64 */
    LUBDHVANI_STACK_BUT_READ = 6144    /* the same of every call that reads no stretch */
};

/* Numbers returned. */
enum {
    LUBDHVANI_DONE = 0,        /* done, or the end of the stream */
    LUBDHVANI_UNKNOWN = 1,     /* unknown hash or cipher instance, state size not permitted, or a running digest's record whose instance is unknown
                                  or whose total is over 65,536; its other fields are not judged */
    LUBDHVANI_SIZES = 2,       /* key, nonce, digest, seal, seal buffer or job not of its size: 16, 12, 32, 16, 16, 4 bytes, or the cipher's */
    LUBDHVANI_TOO_LONG = 3,    /* an input over its limit, the writer's line not 1 to 65 bytes, or an event that takes a replay's stream past its limit */
    LUBDHVANI_NO_ROOM = 4,     /* a buffer too small */
    LUBDHVANI_BAD_SEAL = 5,    /* the seal is not the one worked out */
    LUBDHVANI_BAD_STUFFING = 6,
    LUBDHVANI_BAD_SHAPE = 7,   /* a stretch over 288 bytes, or fields not as they must be, of an edition that is not allowed among them */
    LUBDHVANI_OTHER_FONT = 8,  /* the font digest differs from the one asked for */
    LUBDHVANI_UNLISTED = 9,    /* the line holds a byte that is not listed */
    LUBDHVANI_BEYOND = 10,     /* the place is beyond the stream's end; of an index the last place recorded */
    LUBDHVANI_NO_BUNDLE = 11,  /* not of the shape of a bundle, or of what one is made of: a name's length, the rows, a top bit */
    LUBDHVANI_ALIKE = 12,      /* two glyphs with the same dots */
    LUBDHVANI_NOT_TRADE = 13,  /* the line's bytes are listed, but it is not the trade's line */
    LUBDHVANI_AFTER_FINISH = 14, /* feed or finish of a running digest after its finish */
    LUBDHVANI_OVER_WORK = 15,  /* the stretch takes more calls of the permutation than are allowed */
    LUBDHVANI_OTHER_EDITION = 16, /* the converter's stretch is not of the edition named */
    LUBDHVANI_OTHER_LAYOUT = 17, /* the line is the trade's, but not of the layout named */
    LUBDHVANI_NO_ROUNDS = 18,  /* a count of rounds that is not 1 to 255 */
    LUBDHVANI_TOO_MANY = 19,   /* an index of more than 512 entries, handed in or to come, or a stream of over 512 stretches to accept */
    LUBDHVANI_BAD_EVENT = 20,  /* no event of a trace: another tag, a field that is cut off, or a request that carries bytes */
    LUBDHVANI_NO_LINE = 21,    /* an event that prints where no line is given and unprinted */
    LUBDHVANI_REPEATED = 22    /* the nonce of the stretch occurs in a stretch before it */
};

/* The version of the library that is linked. It is LUBDHVANI_VERSION where library and header belong together; from one first part of the version to
 * the next, callers must be changed. */
uint32_t lubdhvani_version(void);

/* A number, and a count of calls of the permutation. */
struct lubdhvani_counted {
    size_t number;
    size_t calls;
};

/* A number, and the length of what was written or found. */
struct lubdhvani_measured {
    size_t number;
    size_t length;
};

/* So many rounds of the permutation, 1 to 255, on a state of `size` bytes, where it stands, and their inverse.
 * 0: the state is permuted. 1: `size` is not permitted; 18: `rounds` is not 1 to 255; the state is as it was. 1 comes before 18. */
uint32_t lubdhvani_permute(uint8_t *state, size_t size, size_t rounds);
uint32_t lubdhvani_unpermute(uint8_t *state, size_t size, size_t rounds);

/* The digest of a message with hash instance 1 to 10.
 * 0: out[0..32] is the digest, calls the count. 1, 3 (over 65,536 bytes), 4 (room under 32): out is untouched, calls is 0. */
struct lubdhvani_counted lubdhvani_digest(size_t instance, const uint8_t *message, size_t message_length, uint8_t *out, size_t room);

/* A running digest: the same digest of a message that comes in pieces, through a window as small as the caller likes. The record is the
 * caller's, may stand on the stack, and is updated where it stands. It holds nothing of the message but its unfinished block. Fields are for
 * the calls below. A record may hold anything before its start; one that is all zero, `= {0}`, is refused with 1 until it is started, where stray
 * bytes might be taken for a record. It is plain memory: copy it to go on from one place twice. */
struct lubdhvani_running {
    size_t total;                            /* bytes fed */
    uint32_t instance;
    uint32_t finished;                       /* 0 before a finish, 1 after it; any other number counts as finished */
    uint8_t state[LUBDHVANI_LARGEST_STATE];  /* zero past the instance's size */
    uint8_t block[LUBDHVANI_LARGEST_BLOCK];  /* the unfinished block's bytes, zeros behind them */
};
#if defined(__STDC_VERSION__) && __STDC_VERSION__ >= 201112L
_Static_assert(sizeof(struct lubdhvani_running) == 104, "the record has no padding");
#endif

/* Starts a digest with hash instance 1 to 10, whatever the record held, a finished digest too.
 * 0: the record is that of the empty message. 1: there is no such instance, and the record is as it was. */
uint32_t lubdhvani_start(struct lubdhvani_running *running, size_t instance);

/* Feeds more of the message, any number of bytes, none too. Each block is taken in as it fills.
 * 0: taken in, and written anew: all but instance, total, state and unfinished block is zero. 14: after a finish. 1: the record has no known
 * instance, or a total over 65,536. 3: the total would pass 65,536. A refused feed leaves the record byte for byte and takes nothing in. The record is written
 * with these bytes again, so it must be writable even so; that is so of a refused start and finish too. */
uint32_t lubdhvani_feed(struct lubdhvani_running *running, const uint8_t *bytes, size_t length);

/* Gives the digest of all that was fed.
 * 0: out[0..32] is the digest and calls the count, both those of lubdhvani_digest for the whole message; the record is finished, keeps
 * instance and total, and is zero else. 14, 1 as above, 4 (room under 32): record and out are untouched, calls is 0; after 4 the finish may be
 * asked for again. */
struct lubdhvani_counted lubdhvani_finish(struct lubdhvani_running *running, uint8_t *out, size_t room);

/* Seals a message with cipher instance 1 to 6. `seal` is the buffer for the seal, of exactly 16 bytes. Key, nonce and rate R in bytes:
 *   instance   1   2   3   4   5   6
 *   key       16  16  16  16  32  32
 *   nonce     12  12  12  16  12  16
 *   R          1   2   4   8   8   8
 * 0: out[0..message_length] is the ciphertext, seal the seal, calls = 4 + associated_length / R + message_length / R, each quotient rounded down.
 * 1, 2, 3 (associated data over 1,024 or message over 4,096), 4 (room under the message's length): out and seal are untouched, calls
 * is 0. A nonce must never be used twice with one key; none is made here. */
struct lubdhvani_counted lubdhvani_seal(size_t instance, const uint8_t *key, size_t key_length, const uint8_t *nonce, size_t nonce_length,
                                        const uint8_t *associated, size_t associated_length, const uint8_t *message, size_t message_length,
                                        uint8_t *out, size_t room, uint8_t *seal, size_t seal_length);

/* Opens a ciphertext with cipher instance 1 to 6. All sixteen bytes of the seal are compared.
 * 0: out[0..cipher_length] is the message, calls the count. 1, 2, 3, 4 as above: out is untouched, calls is 0.
 * 5: out[0..cipher_length] is zero, the rest stays, calls is the count of the finished work.
 * While the call runs, out[0..cipher_length] holds bytes that are not yet verified: use them only after the number 0. */
struct lubdhvani_counted lubdhvani_open(size_t instance, const uint8_t *key, size_t key_length, const uint8_t *nonce, size_t nonce_length,
                                        const uint8_t *associated, size_t associated_length, const uint8_t *cipher, size_t cipher_length,
                                        const uint8_t *seal, size_t seal_length, uint8_t *out, size_t room);

/* The layout of a line that a caller names; writers, reader and converter are told it alike. A layout is the whole line, with nothing before,
 * between or behind: under A 22 bytes, transit (A), nine digits, transit, ten account digits, on-us (C); under B 24 bytes, with twelve account
 * digits. Neither asks for no more than the trade's line. Any other number is a layout that no line has: a wrong number prints nothing. */
enum {
    LUBDHVANI_LAYOUT_NEITHER = 0,
    LUBDHVANI_LAYOUT_A = 1,
    LUBDHVANI_LAYOUT_B = 2
};

/* What a writer answers. */
struct lubdhvani_framed {
    size_t number;
    size_t length; /* the frame's, with both its marks */
    size_t calls;
};

/* Writes the frame of a line, sealed to a font's digest.
 * 0: frame[0..length] is the frame with both its marks, calls = line_length + 39.
 * 2, 3 (line not 1 to 65 bytes), 9, 13, 17, 4 (room under 276): frame is untouched, length and calls are 0.
 * A line is the trade's if it has a digit and no transit symbol (A), or exactly two with exactly nine digits and no other byte between.
 * 17: it is, but has not the layout. The frame doesn't say under which layout it was written. */
struct lubdhvani_framed lubdhvani_write(const uint8_t *key, size_t key_length, const uint8_t *nonce, size_t nonce_length, const uint8_t *font,
                                        size_t font_length, size_t layout, const uint8_t *line, size_t line_length, uint8_t *frame,
                                        size_t room);

/* The same in edition two, with a job of 4 bytes; 2 also for a job of another length.
 * 0: calls = line_length + 46. 4: room under 290. */
struct lubdhvani_framed lubdhvani_write_two(const uint8_t *key, size_t key_length, const uint8_t *nonce, size_t nonce_length,
                                            const uint8_t *font, size_t font_length, size_t layout, const uint8_t *job, size_t job_length,
                                            const uint8_t *line, size_t line_length, uint8_t *frame, size_t room);

/* The editions that a reader allows: a set of two bits; other bits say nothing. */
enum {
    LUBDHVANI_EDITION_ONE = 1,
    LUBDHVANI_EDITION_TWO = 2,
    LUBDHVANI_BOTH_EDITIONS = 3
};

/* Where a stretch stands. */
struct lubdhvani_span {
    size_t first;   /* the place of its first byte */
    size_t closing; /* the place of its closing mark */
};

/* The next stretch of a stream of any length: the first whose opening mark stands at `from` or later. Where there is none both places are
 * stream_length. */
struct lubdhvani_span lubdhvani_next_stretch(const uint8_t *stream, size_t stream_length, size_t from);

/* What a reader is told anew at each call. Later fields may join it: set it with an initializer,
 * `{.editions = LUBDHVANI_EDITION_ONE, .allowed = LUBDHVANI_ALL_WORK}`. What is left out is 0, which is neither layout. */
struct lubdhvani_asked {
    size_t editions; /* the editions that are allowed; a stretch of another is refused with 7 */
    size_t allowed;  /* the calls of the permutation that the stretch is allowed */
    size_t layout;   /* the layout that a line must have; the trade's line of another is refused with 17 */
};

/* Which of four a reading is. */
enum {
    LUBDHVANI_END = 0,             /* the end of the stream, or no further stretch in what is at hand */
    LUBDHVANI_LINE = 1,            /* a line */
    LUBDHVANI_STRETCH_REFUSED = 2, /* a stretch that is no line: number says why */
    LUBDHVANI_CALL_REFUSED = 3     /* the call: number says why, and the same call again answers the same */
};

/* What a reading comes to. */
struct lubdhvani_reading {
    size_t outcome; /* one of the four above */
    size_t number;  /* one of the numbers; 0 for a line and for the end */
    size_t first;   /* the place of the stretch's first byte */
    size_t closing; /* the place of its closing mark, where the next reading starts */
    size_t length;  /* the line's length; 0 where no line is given */
    size_t calls;   /* the calls of the permutation made */
    size_t edition; /* the line's edition, 1 or 2; 0 where no line is given */
    size_t job;     /* the job of a line of edition two as a number, high byte first; else 0 */
};

/* Judges the next stretch from a place and gives out its line, of a stream that is at hand.
 * LUBDHVANI_LINE, number 0: line[0..length] is the line. Else line is untouched.
 * LUBDHVANI_STRETCH_REFUSED, number 5, 6, 7, 8, 9, 13, 15 or 17: the stretch from first up to closing.
 * LUBDHVANI_END, number 0: first = closing = stream_length.
 * LUBDHVANI_CALL_REFUSED, number 2, 3, 4 or 10: first = closing = from.
 * calls is n + 39 (in edition two n + 46) for a line, 5, 9, 13 and 17, n being the length of the line's ciphertext; else 0, and never more than is
 * allowed. 15: that is more than is allowed. Nothing was worked out; the same stretch may be read again from the same place with more allowed.
 *
 * All lines of a stream at hand: reading goes on from `closing` behind a line and behind a refused stretch, and stops at the other two.
 *     for (size_t from = 0;;) {
 *         struct lubdhvani_reading r = lubdhvani_read(stream, n, from, key, 16, font, 32, asked, line, sizeof line);
 *         if (r.outcome == LUBDHVANI_LINE)
 *             print(line, r.length);
 *         else if (r.outcome != LUBDHVANI_STRETCH_REFUSED)
 *             break;
 *         from = r.closing;
 *     }
 * Of a stream that still grows what is at hand may end inside a frame. When more has come, read on from the closing mark of the last line or refused
 * stretch (from 0 where there was none yet), never from the places of the end: they stand behind the frame's first part, which would be lost. What
 * stands before that mark may be let go; places are then counted from the new first byte. */
struct lubdhvani_reading lubdhvani_read(const uint8_t *stream, size_t stream_length, size_t from, const uint8_t *key,
                                        size_t key_length, const uint8_t *font, size_t font_length, struct lubdhvani_asked asked,
                                        uint8_t *line, size_t room);

/* A walker: a stream and the place reached. The caller makes it, `{.stream = bytes, .length = n}` stands at the start; it points to the stream and copies
 * nothing of it. What the call writes is no part of it or of its stream. */
struct lubdhvani_walker {
    const uint8_t *stream;
    size_t length;
    size_t at;
};

/* Reads from the place that a walker has reached, as lubdhvani_read does, and moves the walker to where that reading ends, its closing place: so at the
 * end to the stream's length, and where the call is refused not at all. The stream and its length stay. A walker is for a stream at hand, too. */
struct lubdhvani_reading lubdhvani_next(struct lubdhvani_walker *walker, const uint8_t *key, size_t key_length, const uint8_t *font,
                                        size_t font_length, struct lubdhvani_asked asked, uint8_t *line, size_t room);

/* What accepting a stream comes to. */
struct lubdhvani_accepted {
    size_t number;
    size_t first;   /* the stretch at fault: the place of its first byte */
    size_t closing; /* and that of its closing mark */
};

/* Whether a stream that somebody else wrote may go to press: yes exactly when each stretch reads as a line and no nonce occurs in two of them. The
 * editions are those that a reader allows; every stretch has all the work it takes. Nothing is written; stretches are counted before any is read, and
 * each is read once.
 * 0, yes: first = closing = stream_length. So too for a stream with no stretch; bytes outside the marks don't matter.
 * 2, 3 (over 65,536 bytes), 19 (over 512 stretches): first = closing = 0.
 * Else the first stretch at fault, from first up to closing: with the number that lubdhvani_read gives for it (5, 6, 7, 8, 9, 13 or 17), or with 22,
 * where it reads as a line and a stretch before it has its nonce, in whatever edition. */
struct lubdhvani_accepted lubdhvani_accept(const uint8_t *stream, size_t stream_length, const uint8_t *key, size_t key_length, const uint8_t *font,
                                           size_t font_length, size_t editions, size_t layout);

/* The nonce of a stretch. */
struct lubdhvani_nonce_found {
    uint32_t found;                 /* 1, or 0 where the bytes hold none */
    uint8_t bytes[LUBDHVANI_NONCE]; /* the nonce; zeros where none is found */
};

/* The nonce of the bytes between two marks, by which a line can be tied to its order and a frame that was sent twice be seen. Found exactly if the bytes
 * are well stuffed, at most 288, and are the fields of a body of either edition. Nothing is told and no seal is looked at: only for a stretch that
 * lubdhvani_read gives a line for is it the nonce that the line was sealed under. */
struct lubdhvani_nonce_found lubdhvani_nonce(const uint8_t *stretch, size_t stretch_length);

/* Replay: a press records what it received, asked for and printed, and the trace is run again. A trace is events one after the other, each a tag, two
 * bytes of length (high byte first) and so many bytes:
 *   0x20  stream bytes received, any number of them, none too: they are added to the stream, which is empty at the start
 *   0x21  a line asked for, of length 0: the stream as received so far is read on from where the last reading ended, refused stretches are passed over, and
 *         the first line met is given. None: nothing is given, and the next request reads on from the last closing mark passed, so that a frame that has
 *         come in part is read when it is whole. A line that was given before and not printed is dropped
 *   0x22  a line printed, with the printed bytes, any number of them: they are compared whole with the line given, right or wrong, which is printed then
 * A trace may have any length. The editions are those that a reader allows; every stretch has all the work it takes. */
enum {
    LUBDHVANI_RECEIVED = 0x20,
    LUBDHVANI_ASKED_FOR = 0x21,
    LUBDHVANI_PRINTED = 0x22
};

/* What a replay comes to. */
struct lubdhvani_replayed {
    size_t number;
    size_t event;    /* counted from 1 */
    size_t received; /* how many bytes the stream has */
};

/* Runs a trace. The stream is gathered in `stream`, of at least 65,536 bytes; a longer buffer raises no limit.
 * 0: every event was carried out; event is the first that printed other bytes than the line given, 0 where none did.
 * 20, 21, 3 (the stream would have over 65,536 bytes): event is the first at fault, whatever was printed before it; it takes nothing in, and nothing behind
 * it is looked at. Within one event 20 comes first.
 * Then stream[0..received] is what the events before the fault received, all of them where there is none, and the rest of the buffer is as it was.
 * 2, 4 (room under 65,536): the buffer is untouched, event and received are 0. */
struct lubdhvani_replayed lubdhvani_replay(const uint8_t *trace, size_t trace_length, const uint8_t *key, size_t key_length, const uint8_t *font,
                                           size_t font_length, size_t editions, size_t layout, uint8_t *stream, size_t room);

/* What stood at an event. */
struct lubdhvani_stood_there {
    size_t number;
    size_t length;                        /* of the line given, 1 to 65; 0 where no line stood there */
    size_t place;                         /* the printed bytes are trace[place .. place + printed] */
    size_t printed;
    size_t received;                      /* how many bytes the stream has */
    uint8_t line[LUBDHVANI_LONGEST_LINE]; /* the line given, zeros behind it */
    uint8_t zeros[7];
};

/* The line that was given when an event, counted from 1, printed, and where the printed bytes stand in the trace: so a difference that lubdhvani_replay found
 * can be shown. A line stood there exactly if that event prints and neither it nor one before it is at fault.
 * 0: length, line, place and printed tell it, and are all zero where none stood there. stream[0..received] is what was received before that event, or before
 * the first at fault where that comes earlier; the rest is as it was. Event 0 has none before it; an event behind the last has all before it.
 * 2, 4 (room under 65,536): the buffer is untouched, all else is 0.
 *
 *     static uint8_t stream[LUBDHVANI_LONGEST_INPUT];
 *     struct lubdhvani_replayed r = lubdhvani_replay(trace, n, key, 16, font, 32, LUBDHVANI_EDITION_ONE, LUBDHVANI_LAYOUT_NEITHER, stream, sizeof stream);
 *     if (r.number == LUBDHVANI_DONE && r.event != 0) {
 *         struct lubdhvani_stood_there s = lubdhvani_stood(trace, n, r.event, key, 16, font, 32, LUBDHVANI_EDITION_ONE, LUBDHVANI_LAYOUT_NEITHER, stream,
 *                                                          sizeof stream);
 *         show(s.line, s.length, trace + s.place, s.printed);
 *     } */
struct lubdhvani_stood_there lubdhvani_stood(const uint8_t *trace, size_t trace_length, size_t event, const uint8_t *key, size_t key_length,
                                             const uint8_t *font, size_t font_length, size_t editions, size_t layout, uint8_t *stream, size_t room);

/* Glyph bundles: a font as a name and fourteen glyphs of nine rows. A bundle is the tag 0x10, two bytes of length (high byte first) and the name;
 * then for each character 0 to 9, A to D the tag 0x12, two bytes of length, which is ten, the character byte and its nine rows. No two glyphs
 * have the same dots. Its font digest is the digest of the whole bundle with instance 1. */

/* Writes the bundle of a name and 126 rows, nine for each character in the order above.
 * 0: bundle[0..length] is the bundle, length = 185 + name_length. 11 (name not 1 to 32 bytes, not 126 rows, a top bit), 12, 4 (room under
 * 217): bundle is untouched, length is 0. */
struct lubdhvani_measured lubdhvani_bundle_write(const uint8_t *name, size_t name_length, const uint8_t *rows, size_t rows_length,
                                                 uint8_t *bundle, size_t room);

/* Judges bytes as a bundle: exactly what the writer can make is accepted.
 * 0: length is that of the name. 11, 12: length is 0. Bytes of any other length than a bundle's are 11, never 3. */
struct lubdhvani_measured lubdhvani_bundle_read(const uint8_t *bundle, size_t bundle_length);

/* The font digest of a bundle, to be told to every call that takes one: write, write_two, read, next, to_one, to_two, index_update, accept, replay, stood.
 * 0: out[0..32] is the digest. 3 (over 65,536 bytes), 11, 12, 4 (room under 32): out is untouched. */
uint32_t lubdhvani_bundle_digest(const uint8_t *bundle, size_t bundle_length, uint8_t *out, size_t room);

/* Where a part of a bundle stands: bundle[first .. first + length]. */
struct lubdhvani_part {
    size_t first;
    size_t length;
};

/* Where the name of a bundle stands, and where the rows of a character stand. Where the bytes are no bundle (11 and 12 both), or the character is
 * none of the fourteen, first is bundle_length and length 0. */
struct lubdhvani_part lubdhvani_bundle_name(const uint8_t *bundle, size_t bundle_length);
struct lubdhvani_part lubdhvani_bundle_rows(const uint8_t *bundle, size_t bundle_length, uint8_t character);

/* The converter: the line of a stretch, what stands between two marks, sealed anew in the other edition under this nonce and, in edition two,
 * this job. lubdhvani_to_one takes a stretch of edition two, lubdhvani_to_two one of edition one; the line must have the layout.
 * 0: frame[0..length] is the new frame with both its marks. 2, 4 (room under 276, or 290 for edition two), then the stretch's own, in this order: 7
 * for its length, 6, 7 for its fields, 16, 8, 5, 9, 13, 17: frame is untouched, length is 0. Going back under the first nonce, and the first job
 * where there was one, gives the first frame byte for byte. */
struct lubdhvani_measured lubdhvani_to_one(const uint8_t *stretch, size_t stretch_length, const uint8_t *key, size_t key_length,
                                           const uint8_t *font, size_t font_length, size_t layout, const uint8_t *nonce, size_t nonce_length,
                                           uint8_t *frame, size_t room);
struct lubdhvani_measured lubdhvani_to_two(const uint8_t *stretch, size_t stretch_length, const uint8_t *key, size_t key_length,
                                           const uint8_t *font, size_t font_length, size_t layout, const uint8_t *nonce, size_t nonce_length,
                                           const uint8_t *job, size_t job_length, uint8_t *frame, size_t room);

/* An index beside the stream: a table of stretches in the stream's order, refused ones too, so that the hundredth line is found without reading again.
 * An entry is one uint32_t: the place of the stretch's first byte times 256, plus the stretch's number. Any number is an entry, so every table is taken.
 * The caller keeps the table, of at least LUBDHVANI_INDEX entries, and the count of those that are in use; a fresh build is an update of count 0.
 *
 * The hundredth line of a stream, and the same table after bytes were added at the stream's end:
 *     static uint32_t table[LUBDHVANI_INDEX];
 *     struct lubdhvani_indexed up = {0};
 *     up = lubdhvani_index_update(stream, n, key, 16, font, 32, LUBDHVANI_EDITION_ONE, LUBDHVANI_LAYOUT_NEITHER, table, LUBDHVANI_INDEX, up.count);
 *     if (up.number == LUBDHVANI_DONE) {
 *         struct lubdhvani_entry_line at = lubdhvani_index_line(table, LUBDHVANI_INDEX, up.count, 100);
 *         if (at.there)
 *             r = lubdhvani_read(stream, n, at.place - 1, key, 16, font, 32, asked, line, sizeof line);
 *     }
 * Reading goes on from the place before the entry's, where the stretch's opening mark stands. */
struct lubdhvani_indexed {
    size_t number; /* one of the numbers */
    size_t count;  /* the table's entries now; on a refusal as handed in */
};

/* Brings a table of count entries up to date with the stream: adds the stretches whose first byte stands after the last entry's place, all of them
 * where count is 0, each judged with all the work it takes under these editions and this layout. Only those are judged: after one more frame the
 * update costs that frame's work.
 * 0: table[0..count] is as it was, then come the entries added, and what stands behind them stays. A table built from a shorter stream, under the same
 * key, font, editions and layout, is then what a fresh build from this stream gives.
 * 2, 3, 4 (a table under 512 entries), 19 (count over 512), 10 (the last entry's place is beyond the stream), 19 (there would be more than 512 entries):
 * the table is untouched, the count comes back. A table of more than 512 entries is still used up to 512. */
struct lubdhvani_indexed lubdhvani_index_update(const uint8_t *stream, size_t stream_length, const uint8_t *key, size_t key_length,
                                                const uint8_t *font, size_t font_length, size_t editions, size_t layout, uint32_t *table,
                                                size_t entries, size_t count);

/* An entry looked up: 1 where there is one, else all fields are 0. */
struct lubdhvani_entry {
    size_t there;
    size_t place;  /* of the stretch's first byte */
    size_t number; /* of the stretch: 0 is a line */
};

/* The entry at an index, counted from 0. Only entries below the count, 512 and the table's length are there. */
struct lubdhvani_entry lubdhvani_index_entry(const uint32_t *table, size_t entries, size_t count, size_t index);

/* The entry of a line looked up: 1 where there is one, else all fields are 0. */
struct lubdhvani_entry_line {
    size_t there;
    size_t index; /* of its entry */
    size_t place;
};

/* The entry of the k-th line, counted from 1 among the entries with number 0; none for k = 0 and where there are fewer lines. */
struct lubdhvani_entry_line lubdhvani_index_line(const uint32_t *table, size_t entries, size_t count, size_t k);

#if defined(__STDC_VERSION__) && __STDC_VERSION__ >= 201112L
_Static_assert(sizeof(struct lubdhvani_counted) == 2 * sizeof(size_t), "no padding");
_Static_assert(sizeof(struct lubdhvani_measured) == 2 * sizeof(size_t), "no padding");
_Static_assert(sizeof(struct lubdhvani_framed) == 3 * sizeof(size_t), "no padding");
_Static_assert(sizeof(struct lubdhvani_span) == 2 * sizeof(size_t), "no padding");
_Static_assert(sizeof(struct lubdhvani_part) == 2 * sizeof(size_t), "no padding");
_Static_assert(sizeof(struct lubdhvani_asked) == 3 * sizeof(size_t), "no padding");
_Static_assert(sizeof(struct lubdhvani_reading) == 8 * sizeof(size_t), "no padding");
_Static_assert(sizeof(struct lubdhvani_indexed) == 2 * sizeof(size_t), "no padding");
_Static_assert(sizeof(struct lubdhvani_entry) == 3 * sizeof(size_t), "no padding");
_Static_assert(sizeof(struct lubdhvani_entry_line) == 3 * sizeof(size_t), "no padding");
_Static_assert(sizeof(struct lubdhvani_accepted) == 3 * sizeof(size_t), "no padding");
_Static_assert(sizeof(struct lubdhvani_nonce_found) == 16, "no padding");
_Static_assert(sizeof(struct lubdhvani_replayed) == 3 * sizeof(size_t), "no padding");
_Static_assert(sizeof(struct lubdhvani_stood_there) == 5 * sizeof(size_t) + 72, "no padding");
_Static_assert(sizeof(struct lubdhvani_walker) == sizeof(uint8_t *) + 2 * sizeof(size_t), "no padding");
#endif

#ifdef __cplusplus
}
#endif

#endif
