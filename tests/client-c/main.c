/* A composer and a press in small, over include/lubdhvani.h: twelve lines are sealed and sent, the link damages some of them,
 * and the press lists what arrives. Every answer is compared with the one expected; the status is 1 if one differs. VERSION_TOLD is the version
 * of the file VERSION, as one number. */
#include "lubdhvani.h"

#include <stdio.h>
#include <string.h>

static int wrong;

static void check(int holds, const char *what)
{
    if (!holds) {
        printf("client-c: WRONG: %s\n", what);
        wrong = 1;
    }
}

static int all_are(uint8_t byte, const uint8_t *bytes, size_t length)
{
    for (size_t i = 0; i < length; i++)
        if (bytes[i] != byte)
            return 0;
    return 1;
}

/* What the composer and the press share: a key, and the digest of the font. */
static const uint8_t key[LUBDHVANI_KEY] = "the press's key";
static const uint8_t font_file[] = "fourteen characters, all of one width";
static uint8_t font[LUBDHVANI_DIGEST];

/* The permutation and its inverse. */

static void check_permutation(void)
{
    uint8_t state[30] = "thirty bytes are permitted", before[30];
    memcpy(before, state, sizeof state);

    static const size_t rounds[] = {1, 2, LUBDHVANI_ROUNDS / 2, LUBDHVANI_ROUNDS, 33, LUBDHVANI_MOST_ROUNDS};
    for (size_t i = 0; i < sizeof rounds / sizeof rounds[0]; i++) {
        check(lubdhvani_permute(state, 30, rounds[i]) == LUBDHVANI_DONE, "30 bytes are permuted");
        check(memcmp(state, before, 30) != 0, "the state has changed");
        check(lubdhvani_unpermute(state, 30, rounds[i]) == LUBDHVANI_DONE, "30 bytes are permuted back");
        check(memcmp(state, before, 30) == 0, "the inverse gives the state back");
    }
    check(lubdhvani_permute(state, 28, 0) == LUBDHVANI_UNKNOWN, "28 bytes are not permitted, whatever the rounds");
    check(lubdhvani_permute(state, 30, 0) == LUBDHVANI_NO_ROUNDS, "0 rounds are none");
    check(lubdhvani_permute(state, 30, LUBDHVANI_MOST_ROUNDS + 1) == LUBDHVANI_NO_ROUNDS, "256 rounds are too many");
    check(lubdhvani_unpermute(state, 30, SIZE_MAX) == LUBDHVANI_NO_ROUNDS, "so is the largest number");
    check(memcmp(state, before, 30) == 0, "a refused state stays");
}

/* A digest: of the empty message with instance 1, as tests/second prints it with `second kat hash 1`. */

static void check_digest(void)
{
    static const uint8_t expected[LUBDHVANI_DIGEST] = {
        0x3D, 0x55, 0x7E, 0x63, 0x35, 0xEB, 0xC0, 0x69, 0xB1, 0x35, 0x18, 0xF3, 0x9D, 0x50, 0xAB, 0xD8,
        0x7B, 0xA7, 0xA6, 0x7A, 0xE3, 0xC3, 0xEB, 0x93, 0x56, 0xFA, 0xD5, 0x18, 0x9B, 0x2B, 0xA9, 0xF0};
    uint8_t digest[LUBDHVANI_DIGEST];
    struct lubdhvani_counted d = lubdhvani_digest(1, NULL, 0, digest, sizeof digest);

    check(d.number == LUBDHVANI_DONE, "the empty message is digested");
    check(memcmp(digest, expected, sizeof digest) == 0, "its digest");
    check(d.calls == 33, "the calls of its digest");
    d = lubdhvani_digest(11, NULL, 0, digest, sizeof digest);
    check(d.number == LUBDHVANI_UNKNOWN && d.calls == 0, "there is no instance 11");
}

/* A font digested as it loads, through a window of 512 bytes: the same digest and the same count. */

enum { WINDOW = 512 };

static void check_running(void)
{
    static uint8_t loaded[3 * WINDOW + 77];
    struct lubdhvani_running running = {0}, before;
    struct lubdhvani_counted finished, at_once;
    uint8_t whole[LUBDHVANI_DIGEST], digest[LUBDHVANI_DIGEST];

    for (size_t i = 0; i < sizeof loaded; i++)
        loaded[i] = (uint8_t)(7 * i);
    check(lubdhvani_feed(&running, loaded, 1) == LUBDHVANI_UNKNOWN, "a record that was not started can't be fed");
    check(lubdhvani_start(&running, 1) == LUBDHVANI_DONE, "a digest is started");
    for (size_t at = 0; at < sizeof loaded; at += WINDOW) {
        size_t left = sizeof loaded - at;
        check(lubdhvani_feed(&running, loaded + at, left < WINDOW ? left : WINDOW) == LUBDHVANI_DONE, "a window is fed");
    }
    before = running;
    check(lubdhvani_feed(&running, loaded, LUBDHVANI_LONGEST_INPUT) == LUBDHVANI_TOO_LONG, "more than 65,536 bytes are too long");
    finished = lubdhvani_finish(&running, digest, sizeof digest - 1);
    check(finished.number == LUBDHVANI_NO_ROOM && finished.calls == 0, "31 bytes are no room");
    check(memcmp(&running, &before, sizeof running) == 0, "refusals leave the record as it was");
    finished = lubdhvani_finish(&running, digest, sizeof digest);
    check(finished.number == LUBDHVANI_DONE, "the digest is given");
    at_once = lubdhvani_digest(1, loaded, sizeof loaded, whole, sizeof whole);
    check(at_once.number == LUBDHVANI_DONE && memcmp(digest, whole, sizeof digest) == 0 && finished.calls == at_once.calls,
          "it is that of the whole, with its count");
    check(lubdhvani_feed(&running, loaded, 0) == LUBDHVANI_AFTER_FINISH, "a finished digest can't be fed");
}

/* Sealing and opening, and a seal with one bit changed. */

static void check_seal(void)
{
    static const uint8_t nonce[LUBDHVANI_NONCE] = "never again", message[] = "0000012500B";
    uint8_t cipher[sizeof message], seal[LUBDHVANI_SEAL], back[sizeof message + 1];
    const size_t n = sizeof message;
    struct lubdhvani_counted c = lubdhvani_seal(1, key, sizeof key, nonce, sizeof nonce, font, sizeof font, message, n, cipher,
                                                sizeof cipher, seal, sizeof seal);

    check(c.number == LUBDHVANI_DONE, "a message is sealed");
    check(c.calls == sizeof font + n + 4, "the calls of sealing");

    memset(back, 0xEE, sizeof back);
    c = lubdhvani_open(1, key, sizeof key, nonce, sizeof nonce, font, sizeof font, cipher, n, seal, sizeof seal, back, sizeof back);
    check(c.number == LUBDHVANI_DONE, "it is opened");
    check(memcmp(back, message, n) == 0 && back[n] == 0xEE, "the message comes back, and nothing behind it");

    seal[15] ^= 0x01;
    c = lubdhvani_open(1, key, sizeof key, nonce, sizeof nonce, font, sizeof font, cipher, n, seal, sizeof seal, back, sizeof back);
    check(c.number == LUBDHVANI_BAD_SEAL, "a wrong seal is refused");
    check(all_are(0, back, n) && back[n] == 0xEE, "nothing of the message is left, and nothing behind it changed");
}

/* The cipher instance with the longest key and nonce, and numbers that are none. */

static void check_instances(void)
{
    static const uint8_t long_key[LUBDHVANI_LONGEST_KEY] = "another bank's key, thirty-two..";
    static const uint8_t nonce[LUBDHVANI_LONGEST_NONCE] = "never once more", message[] = "0000012500B";
    enum { RATE = 8 };
    uint8_t cipher[sizeof message], seal[LUBDHVANI_SEAL], back[sizeof message];
    const size_t n = sizeof message;
    struct lubdhvani_counted c = lubdhvani_seal(LUBDHVANI_CIPHERS, long_key, sizeof long_key, nonce, sizeof nonce, font, sizeof font, message,
                                                n, cipher, sizeof cipher, seal, sizeof seal);

    check(c.number == LUBDHVANI_DONE, "a message is sealed with the last instance");
    check(c.calls == 4 + sizeof font / RATE + n / RATE, "the calls of sealing eight bytes at a time");
    c = lubdhvani_open(LUBDHVANI_CIPHERS, long_key, sizeof long_key, nonce, sizeof nonce, font, sizeof font, cipher, n, seal, sizeof seal,
                       back, sizeof back);
    check(c.number == LUBDHVANI_DONE, "it is opened with the last instance");
    check(memcmp(back, message, n) == 0, "its message comes back");
    c = lubdhvani_open(LUBDHVANI_CIPHERS, key, sizeof key, nonce, sizeof nonce, font, sizeof font, cipher, n, seal, sizeof seal, back,
                       sizeof back);
    check(c.number == LUBDHVANI_SIZES, "a shorter key is not its key");
    c = lubdhvani_open(LUBDHVANI_CIPHERS + 1, NULL, 0, NULL, 0, NULL, 0, cipher, n, NULL, 0, NULL, 0);
    check(c.number == LUBDHVANI_UNKNOWN && c.calls == 0, "there is no instance 7");
}

/* A line of blanks is not the trade's. */

static void check_trade(void)
{
    static const uint8_t nonce[LUBDHVANI_NONCE] = "once only";
    uint8_t blanks[LUBDHVANI_LONGEST_LINE], frame[LUBDHVANI_FRAME];

    memset(blanks, ' ', sizeof blanks);
    memset(frame, 0xEE, sizeof frame);
    const struct lubdhvani_framed f = lubdhvani_write(key, sizeof key, nonce, sizeof nonce, font, sizeof font, LUBDHVANI_LAYOUT_NEITHER, blanks,
                                                      sizeof blanks, frame, sizeof frame);
    check(f.number == LUBDHVANI_NOT_TRADE, "a line of blanks is refused");
    check(f.length == 0 && f.calls == 0 && all_are(0xEE, frame, sizeof frame), "and no frame is written");
}

/* A line of layout A: written and read under A and under neither, refused under B and under a number that is no layout. */

static const uint8_t of_a[] = "A123456780A0012345678C";
enum { OF_A = sizeof of_a - 1 };

static void check_read_under(size_t layout, int has, const uint8_t *frame, size_t length, const char *what)
{
    const struct lubdhvani_asked asked = {.editions = LUBDHVANI_EDITION_ONE, .allowed = LUBDHVANI_ALL_WORK, .layout = layout};
    uint8_t line[LUBDHVANI_LONGEST_LINE];
    memset(line, '#', sizeof line);
    const struct lubdhvani_reading r = lubdhvani_read(frame, length, 0, key, sizeof key, font, sizeof font, asked, line, sizeof line);

    check(r.number == (has ? LUBDHVANI_DONE : LUBDHVANI_OTHER_LAYOUT), what);
    check(r.outcome == (has ? LUBDHVANI_LINE : LUBDHVANI_STRETCH_REFUSED), "it is a line, or a stretch refused");
    check(r.calls == OF_A + 39 && r.closing == length - 1, "the stretch was worked out, and reading goes on behind it");
    check(has ? r.length == OF_A && memcmp(line, of_a, OF_A) == 0 : all_are('#', line, sizeof line), "its line is given, or none");
}

static void check_layouts(void)
{
    static const uint8_t nonce[LUBDHVANI_NONCE] = "once in A";
    static const struct {
        size_t layout;
        int has;
        const char *what;
    } named[] = {
        {LUBDHVANI_LAYOUT_A, 1, "a line of A under A"},
        {LUBDHVANI_LAYOUT_B, 0, "a line of A under B"},
        {LUBDHVANI_LAYOUT_NEITHER, 1, "a line of A under neither"},
        {3, 0, "a line of A under 3, which is no layout"},
    };
    uint8_t frame[LUBDHVANI_FRAME], other[LUBDHVANI_FRAME];
    const struct lubdhvani_framed f =
        lubdhvani_write(key, sizeof key, nonce, sizeof nonce, font, sizeof font, LUBDHVANI_LAYOUT_A, of_a, OF_A, frame, sizeof frame);

    check(f.number == LUBDHVANI_DONE, "a line of A is written");
    memset(other, 0xEE, sizeof other);
    for (size_t i = 0; i < sizeof named / sizeof named[0]; i++) {
        check_read_under(named[i].layout, named[i].has, frame, f.length, named[i].what);
        if (named[i].has)
            continue;
        const struct lubdhvani_framed none =
            lubdhvani_write(key, sizeof key, nonce, sizeof nonce, font, sizeof font, named[i].layout, of_a, OF_A, other, sizeof other);
        check(none.number == LUBDHVANI_OTHER_LAYOUT, "it is not written either");
        check(none.length == 0 && none.calls == 0 && all_are(0xEE, other, sizeof other), "and no frame is there");
    }
}

/* The composer's orders, and what the link does to the frame of each. */

enum damage { WHOLE, FLIPPED, LOST, DOUBLED, NO_OPENING, NO_CLOSING, OTHER_FONT };

static const struct {
    const char *line;
    enum damage damage;
} orders[] = {
    {"A123456780A 0012345678C 0000012500B", WHOLE},
    {"A123456780A 0012345678C 0000009975B", FLIPPED},
    {"A987654320A 4400012345C 0001000000B", WHOLE},
    {"A987654320A 4400012345C 0000000001B", LOST},
    {"A011000015A 1002003004C 0000420000B", DOUBLED},
    {"A011000015A 1002003004C 0000000200B", WHOLE},
    {"A123456780A 55D66D77C", NO_CLOSING}, /* no harm: the next line's opening mark closes it */
    {"A123456780A 55D66D78C", WHOLE},
    {"A123456780A 55D66D79C", NO_CLOSING}, /* these two run together */
    {"A123456780A 55D66D80C", NO_OPENING},
    {"A011000015A 9C", OTHER_FONT},
    {"7", WHOLE},
};
enum { ORDERS = sizeof orders / sizeof orders[0] };

/* What the press must find. Noise comes before the first line. */
static const struct {
    size_t number;
    const char *line;
} expected[] = {
    {LUBDHVANI_BAD_STUFFING, ""},
    {LUBDHVANI_DONE, "A123456780A 0012345678C 0000012500B"},
    {LUBDHVANI_BAD_SEAL, ""},
    {LUBDHVANI_DONE, "A987654320A 4400012345C 0001000000B"},
    {LUBDHVANI_BAD_SHAPE, ""},
    {LUBDHVANI_BAD_SHAPE, ""},
    {LUBDHVANI_DONE, "A011000015A 1002003004C 0000000200B"},
    {LUBDHVANI_DONE, "A123456780A 55D66D77C"},
    {LUBDHVANI_DONE, "A123456780A 55D66D78C"},
    {LUBDHVANI_BAD_SHAPE, ""},
    {LUBDHVANI_OTHER_FONT, ""},
    {LUBDHVANI_DONE, "7"},
};
enum { EXPECTED = sizeof expected / sizeof expected[0] };

static uint8_t stream[ORDERS * (LUBDHVANI_FRAME + 1) + 64];
static size_t stream_length;

static void send(const uint8_t *bytes, size_t length)
{
    memcpy(stream + stream_length, bytes, length);
    stream_length += length;
}

/* Damages a frame where it stands; the frame's length afterwards. Byte 5 is one of the nonce's. */
static size_t damaged(enum damage damage, uint8_t *frame, size_t length)
{
    switch (damage) {
    case FLIPPED:
        frame[5] ^= 0x01;
        return length;
    case LOST:
        memmove(frame + 5, frame + 6, length - 6);
        return length - 1;
    case DOUBLED:
        memmove(frame + 6, frame + 5, length - 5);
        return length + 1;
    case NO_OPENING:
        memmove(frame, frame + 1, length - 1);
        return length - 1;
    case NO_CLOSING:
        return length - 1;
    default:
        return length;
    }
}

static void compose(void)
{
    static const uint8_t noise[] = {0x41, 0x00, 0x7E, 0x7D, 0x41}, cut_off[] = {0x01, 0x00, 0x0C};
    static const uint8_t other_font[LUBDHVANI_DIGEST] = "a font with narrower digits";

    send(noise, sizeof noise); /* it has a mark, so what follows that mark is a stretch */
    for (size_t k = 0; k < ORDERS; k++) {
        const uint8_t *line = (const uint8_t *)orders[k].line, *its_font = orders[k].damage == OTHER_FONT ? other_font : font;
        uint8_t nonce[LUBDHVANI_NONCE] = {0}, frame[LUBDHVANI_FRAME + 1];
        const size_t n = strlen(orders[k].line);

        nonce[11] = (uint8_t)k; /* the line's number; a nonce is never used twice with one key */
        const struct lubdhvani_framed f = lubdhvani_write(key, sizeof key, nonce, sizeof nonce, its_font, LUBDHVANI_DIGEST,
                                                          LUBDHVANI_LAYOUT_NEITHER, line, n, frame, sizeof frame);
        check(f.number == LUBDHVANI_DONE, "a line is written");
        check(f.length >= n + 74 && f.length <= LUBDHVANI_FRAME && f.calls == n + 39, "the frame's length and calls");
        send(frame, damaged(orders[k].damage, frame, f.length));
    }
    send(cut_off, sizeof cut_off); /* the start of a frame that never came: no stretch */
}

/* The press: reads from place to place up to the end of the stream, beat by beat, and lists what it finds. */

static const char *meaning(size_t number)
{
    switch (number) {
    case LUBDHVANI_BAD_SEAL:
        return "wrong seal";
    case LUBDHVANI_BAD_STUFFING:
        return "bad stuffing";
    case LUBDHVANI_BAD_SHAPE:
        return "not a frame";
    case LUBDHVANI_OTHER_FONT:
        return "other font";
    case LUBDHVANI_UNLISTED:
        return "unlisted byte";
    case LUBDHVANI_NOT_TRADE:
        return "not the trade's line";
    case LUBDHVANI_OTHER_LAYOUT:
        return "other layout";
    default:
        return "the call is refused";
    }
}

/* One reading within a beat of the press, so many calls of the permutation; what takes more is put off, and read again with all allowed. */
enum { BEAT = 60 };

static struct lubdhvani_reading read_in_beats(size_t place, uint8_t line[LUBDHVANI_LONGEST_LINE])
{
    const struct lubdhvani_asked beat = {.editions = LUBDHVANI_EDITION_ONE, .allowed = BEAT}, everything = {.editions = LUBDHVANI_EDITION_ONE, .allowed = LUBDHVANI_ALL_WORK};
    memset(line, '#', LUBDHVANI_LONGEST_LINE);
    struct lubdhvani_reading r =
        lubdhvani_read(stream, stream_length, place, key, sizeof key, font, sizeof font, beat, line, LUBDHVANI_LONGEST_LINE);
    check(r.calls <= BEAT, "no more calls are made than the beat allows");
    if (r.number == LUBDHVANI_OVER_WORK) {
        check(r.calls == 0 && all_are('#', line, LUBDHVANI_LONGEST_LINE), "a stretch that is put off costs nothing");
        r = lubdhvani_read(stream, stream_length, place, key, sizeof key, font, sizeof font, everything, line, LUBDHVANI_LONGEST_LINE);
        check(r.number != LUBDHVANI_OVER_WORK && r.calls > BEAT, "with everything allowed it is read");
    }
    return r;
}

static void print_row(const struct lubdhvani_reading *r, const uint8_t *line)
{
    if (r->outcome == LUBDHVANI_LINE)
        printf("%5zu  line     %.*s\n", r->first, (int)r->length, (const char *)line);
    else
        printf("%5zu  refused  %zu %s\n", r->first, r->number, meaning(r->number));
}

/* What the press must find in this row. */
static void check_row(size_t row, const struct lubdhvani_reading *r, const uint8_t line[LUBDHVANI_LONGEST_LINE])
{
    size_t n = strlen(expected[row].line);
    check(r->number == expected[row].number, "the number of this stretch");
    check(r->outcome == (n > 0 ? LUBDHVANI_LINE : LUBDHVANI_STRETCH_REFUSED), "it is a line, or a stretch refused");
    check(r->length == n && memcmp(line, expected[row].line, n) == 0, "its line is the one that was sealed, or none");
    check(all_are('#', line + n, LUBDHVANI_LONGEST_LINE - n), "nothing else is written");
}

static void press(void)
{
    size_t place = 0, row = 0, printed = 0;

    for (;;) {
        uint8_t line[LUBDHVANI_LONGEST_LINE];
        const struct lubdhvani_reading r = read_in_beats(place, line);
        const struct lubdhvani_span next = lubdhvani_next_stretch(stream, stream_length, place);
        check(r.first == next.first && r.closing == next.closing, "next_stretch finds the stretch that was read");
        if (r.outcome == LUBDHVANI_END) {
            check(r.number == LUBDHVANI_DONE && r.first == stream_length && r.closing == stream_length, "the end of the stream is its length");
            break;
        }
        print_row(&r, line);
        if (!(place < r.first && r.first < r.closing && r.closing < stream_length && row < EXPECTED)) {
            check(0, "reading goes on, from stretch to stretch, as many as there are");
            return;
        }
        check_row(row, &r, line);
        printed += r.outcome == LUBDHVANI_LINE;
        row++;
        place = r.closing;
    }
    check(row == EXPECTED, "every stretch was read");
    printf("client-c: %d lines sent, %zu printed, %zu stretches refused\n", ORDERS, printed, row - printed);
}

/* A bundle: made, judged, taken apart, digested. */

static void check_parts(const uint8_t *bundle, size_t length, const uint8_t *rows)
{
    struct lubdhvani_part part = lubdhvani_bundle_name(bundle, length);
    check(part.length == 6 && memcmp(bundle + part.first, "sample", 6) == 0, "the name of the bundle");
    part = lubdhvani_bundle_rows(bundle, length, 'D');
    check(part.length == LUBDHVANI_GLYPH_ROWS && memcmp(bundle + part.first, rows + 13 * LUBDHVANI_GLYPH_ROWS, part.length) == 0,
          "the rows of D");
    part = lubdhvani_bundle_rows(bundle, length, 'E');
    check(part.first == length && part.length == 0, "E is none of the fourteen");
}

static void check_bundle(void)
{
    uint8_t rows[LUBDHVANI_BUNDLE_ROWS], bundle[LUBDHVANI_BUNDLE], digest[LUBDHVANI_DIGEST], plain[LUBDHVANI_DIGEST];
    const uint8_t *name = (const uint8_t *)"sample";
    for (size_t i = 0; i < sizeof rows; i++)
        rows[i] = (uint8_t)(11 * i % 127);

    struct lubdhvani_measured made = lubdhvani_bundle_write(name, 6, rows, sizeof rows, bundle, sizeof bundle), read;
    check(made.number == LUBDHVANI_DONE && made.length == 191, "a bundle is written, 185 bytes and the name");
    read = lubdhvani_bundle_read(bundle, made.length);
    check(read.number == LUBDHVANI_DONE && read.length == 6, "and read");
    check_parts(bundle, made.length, rows);
    check(lubdhvani_bundle_digest(bundle, made.length, digest, sizeof digest) == LUBDHVANI_DONE, "it is digested");
    check(lubdhvani_digest(1, bundle, made.length, plain, sizeof plain).number == LUBDHVANI_DONE, "so are its bytes");
    check(memcmp(digest, plain, sizeof digest) == 0, "its digest is that of its bytes");

    read = lubdhvani_bundle_read(bundle, made.length - 1);
    check(read.number == LUBDHVANI_NO_BUNDLE && read.length == 0, "a bundle cut short is none");
    memcpy(rows, rows + 5 * LUBDHVANI_GLYPH_ROWS, LUBDHVANI_GLYPH_ROWS);
    made = lubdhvani_bundle_write(name, 6, rows, sizeof rows, bundle, sizeof bundle);
    check(made.number == LUBDHVANI_ALIKE && made.length == 0, "two glyphs alike");
    rows[0] |= 0x80;
    check(lubdhvani_bundle_write(name, 6, rows, sizeof rows, bundle, sizeof bundle).number == LUBDHVANI_NO_BUNDLE, "a top bit");
}

/* The same stream by a walker, with all the work allowed: what it sees is what the press must find. */

static void check_walker(void)
{
    static const struct lubdhvani_asked asked = {.editions = LUBDHVANI_EDITION_ONE, .allowed = LUBDHVANI_ALL_WORK};
    struct lubdhvani_walker walker = {.stream = stream, .length = stream_length};
    uint8_t line[LUBDHVANI_LONGEST_LINE];

    for (size_t row = 0; row < EXPECTED; row++) {
        const size_t from = walker.at;
        memset(line, '#', sizeof line);
        const struct lubdhvani_reading r = lubdhvani_next(&walker, key, sizeof key, font, sizeof font, asked, line, sizeof line);
        check_row(row, &r, line);
        check(from < r.first && walker.at == r.closing, "the walker stands where its reading ends");
        check(walker.stream == stream && walker.length == stream_length, "its stream stays");
    }
    struct lubdhvani_reading r = lubdhvani_next(&walker, key, sizeof key, font, sizeof font, asked, line, sizeof line);
    check(r.outcome == LUBDHVANI_END && walker.at == stream_length, "then it is at the end");
    walker.at = 7;
    r = lubdhvani_next(&walker, key, sizeof key - 1, font, sizeof font, asked, line, sizeof line);
    check(r.outcome == LUBDHVANI_CALL_REFUSED && r.number == LUBDHVANI_SIZES && walker.at == 7, "a refused call moves no walker");
}

/* A bureau's stream: accepted whole, and its first stretch at fault. */

static void check_accept(void)
{
    static uint8_t sent[8 * LUBDHVANI_FRAME_TWO];
    uint8_t nonce[LUBDHVANI_NONCE] = "a bureau's";
    static const uint8_t line[] = "A123456789A 42C", job[LUBDHVANI_JOB] = {0, 0, 0, 7};
    size_t places[5], length = 0;

    for (size_t i = 0; i < 4; i++) {
        struct lubdhvani_framed made;
        places[i] = length;
        nonce[11] = (uint8_t)i;
        if (i % 2)
            made = lubdhvani_write_two(key, sizeof key, nonce, sizeof nonce, font, sizeof font, LUBDHVANI_LAYOUT_NEITHER, job, sizeof job, line,
                                       sizeof line - 1, sent + length, sizeof sent - length);
        else
            made = lubdhvani_write(key, sizeof key, nonce, sizeof nonce, font, sizeof font, LUBDHVANI_LAYOUT_NEITHER, line, sizeof line - 1,
                                   sent + length, sizeof sent - length);
        check(made.number == LUBDHVANI_DONE, "the bureau's line is sealed");
        const struct lubdhvani_nonce_found its = lubdhvani_nonce(sent + length + 1, made.length - 2);
        check(its.found == 1 && memcmp(its.bytes, nonce, sizeof nonce) == 0, "the nonce of its stretch");
        check(lubdhvani_nonce(sent + length, made.length).found == 0, "none with the marks among the bytes");
        length += made.length;
    }
    places[4] = length;
    struct lubdhvani_accepted a =
        lubdhvani_accept(sent, length, key, sizeof key, font, sizeof font, LUBDHVANI_BOTH_EDITIONS, LUBDHVANI_LAYOUT_NEITHER);
    check(a.number == LUBDHVANI_DONE && a.first == length && a.closing == length, "the bureau's stream gets yes");
    a = lubdhvani_accept(sent, length, key, sizeof key, font, sizeof font, LUBDHVANI_EDITION_ONE, LUBDHVANI_LAYOUT_NEITHER);
    check(a.number == LUBDHVANI_BAD_SHAPE && a.first == places[1] + 1 && a.closing == places[2] - 1, "edition two is not allowed");
    /* The second line once more, behind all: the copy is the fault. */
    memcpy(sent + length, sent + places[1], places[2] - places[1]);
    a = lubdhvani_accept(sent, length + places[2] - places[1], key, sizeof key, font, sizeof font, LUBDHVANI_BOTH_EDITIONS, LUBDHVANI_LAYOUT_NEITHER);
    check(a.number == LUBDHVANI_REPEATED && a.first == length + 1, "a nonce twice: the second stretch is named");
    sent[places[4] - 2] ^= 1;
    a = lubdhvani_accept(sent, length, key, sizeof key, font, sizeof font, LUBDHVANI_BOTH_EDITIONS, LUBDHVANI_LAYOUT_NEITHER);
    check(a.number == LUBDHVANI_BAD_SEAL && a.first == places[3] + 1 && a.closing == places[4] - 1, "a broken seal at the end");
    a = lubdhvani_accept(sent, length, key, sizeof key - 1, font, sizeof font, LUBDHVANI_BOTH_EDITIONS, LUBDHVANI_LAYOUT_NEITHER);
    check(a.number == LUBDHVANI_SIZES && a.first == 0 && a.closing == 0, "a key of 15 bytes");
}

/* The four outcomes of a reading beside the press's three: a call that is refused. */

static void check_refused_call(void)
{
    static const struct lubdhvani_asked asked = {.editions = LUBDHVANI_EDITION_ONE, .allowed = LUBDHVANI_ALL_WORK};
    uint8_t line[LUBDHVANI_LONGEST_LINE];
    memset(line, '#', sizeof line);
    const struct lubdhvani_reading r =
        lubdhvani_read(stream, stream_length, stream_length + 1, key, sizeof key, font, sizeof font, asked, line, sizeof line);
    check(r.outcome == LUBDHVANI_CALL_REFUSED && r.number == LUBDHVANI_BEYOND, "a place beyond the end is refused");
    check(r.first == stream_length + 1 && r.closing == r.first && all_are('#', line, sizeof line), "its place comes back, and no line");
}

/* An index beside the stream: each row's place and number, the lines counted, and the same table from the stream as it grows. */

static void check_index(void)
{
    static uint32_t table[LUBDHVANI_INDEX], fresh[LUBDHVANI_INDEX];
    struct lubdhvani_indexed up = {0}, whole;
    struct lubdhvani_walker walker = {.stream = stream, .length = stream_length};
    uint8_t line[LUBDHVANI_LONGEST_LINE];
    size_t lines = 0;

    for (size_t length = 0; length <= stream_length; length++) {
        up = lubdhvani_index_update(stream, length, key, sizeof key, font, sizeof font, LUBDHVANI_EDITION_ONE, LUBDHVANI_LAYOUT_NEITHER, table,
                                    LUBDHVANI_INDEX, up.count);
        check(up.number == LUBDHVANI_DONE, "the index is brought up to date");
    }
    whole = lubdhvani_index_update(stream, stream_length, key, sizeof key, font, sizeof font, LUBDHVANI_EDITION_ONE, LUBDHVANI_LAYOUT_NEITHER, fresh,
                                   LUBDHVANI_INDEX, 0);
    check(whole.count == up.count && memcmp(table, fresh, up.count * sizeof *table) == 0, "byte by byte it is what a fresh build gives");
    check(up.count == EXPECTED, "an entry for each stretch");
    for (size_t row = 0; row < up.count; row++) {
        static const struct lubdhvani_asked asked = {.editions = LUBDHVANI_EDITION_ONE, .allowed = LUBDHVANI_ALL_WORK};
        const struct lubdhvani_reading r = lubdhvani_next(&walker, key, sizeof key, font, sizeof font, asked, line, sizeof line);
        const struct lubdhvani_entry e = lubdhvani_index_entry(table, LUBDHVANI_INDEX, up.count, row);
        check(e.there == 1 && e.place == r.first && e.number == r.number, "with its place and its number");
        if (r.outcome == LUBDHVANI_LINE) {
            const struct lubdhvani_entry_line at = lubdhvani_index_line(table, LUBDHVANI_INDEX, up.count, ++lines);
            check(at.there == 1 && at.index == row && at.place == r.first, "and each line is found by its count");
        }
    }
    check(lubdhvani_index_entry(table, LUBDHVANI_INDEX, up.count, up.count).there == 0, "no entry behind the last");
    check(lubdhvani_index_line(table, LUBDHVANI_INDEX, up.count, lines + 1).there == 0, "no line behind the last");
    up = lubdhvani_index_update(stream, 0, key, sizeof key, font, sizeof font, LUBDHVANI_EDITION_ONE, LUBDHVANI_LAYOUT_NEITHER, table,
                                LUBDHVANI_INDEX, up.count);
    check(up.number == LUBDHVANI_BEYOND && up.count == EXPECTED, "an index of a longer stream is refused");
}

/* The press's trace: what comes in pieces, requests until nothing is given, each line printed. Run again it has no difference; one byte of a print spoiled
 * is shown with the line given; a print more is the event at fault. */

static uint8_t trace[8 * sizeof stream], gathered[LUBDHVANI_LONGEST_INPUT];
static size_t trace_length, events;

static void record(uint8_t tag, const uint8_t *bytes, size_t length)
{
    const uint8_t head[3] = {tag, (uint8_t)(length / 256), (uint8_t)(length % 256)};
    memcpy(trace + trace_length, head, sizeof head);
    if (length > 0)
        memcpy(trace + trace_length + sizeof head, bytes, length);
    trace_length += sizeof head + length;
    events++;
}

static struct lubdhvani_replayed replayed(void)
{
    return lubdhvani_replay(trace, trace_length, key, sizeof key, font, sizeof font, LUBDHVANI_EDITION_ONE, LUBDHVANI_LAYOUT_NEITHER, gathered,
                            sizeof gathered);
}

static struct lubdhvani_stood_there stood_at(size_t event)
{
    return lubdhvani_stood(trace, trace_length, event, key, sizeof key, font, sizeof font, LUBDHVANI_EDITION_ONE, LUBDHVANI_LAYOUT_NEITHER, gathered,
                           sizeof gathered);
}

/* Asks until nothing is given and prints what is, as a press that has so much of the stream; the place where its reading ended. */
static size_t record_lines(size_t length, size_t place, size_t *lines)
{
    static const struct lubdhvani_asked asked = {.editions = LUBDHVANI_EDITION_ONE, .allowed = LUBDHVANI_ALL_WORK};
    uint8_t line[LUBDHVANI_LONGEST_LINE];
    struct lubdhvani_reading r = {.outcome = LUBDHVANI_LINE};

    while (r.outcome == LUBDHVANI_LINE) {
        record(LUBDHVANI_ASKED_FOR, NULL, 0);
        do {
            r = lubdhvani_read(stream, length, place, key, sizeof key, font, sizeof font, asked, line, sizeof line);
            place = r.outcome == LUBDHVANI_END ? place : r.closing;
        } while (r.outcome == LUBDHVANI_STRETCH_REFUSED);
        if (r.outcome == LUBDHVANI_LINE) {
            record(LUBDHVANI_PRINTED, line, r.length);
            ++*lines;
        }
    }
    return place;
}

static void check_replay(void)
{
    enum { PIECE = 40 };
    size_t place = 0, lines = 0, third = 0, at = 0;

    check(replayed().number == LUBDHVANI_DONE, "an empty trace is done");
    for (size_t length = 0, next; length < stream_length; length = next) {
        next = length + PIECE < stream_length ? length + PIECE : stream_length;
        record(LUBDHVANI_RECEIVED, stream + length, next - length);
        place = record_lines(next, place, &lines);
        if (lines == 3 && third == 0) {
            third = events - 1; /* behind the third print stands the request that gave nothing */
            at = trace_length - 4;
        }
    }
    struct lubdhvani_replayed r = replayed();
    check(r.number == LUBDHVANI_DONE && r.event == 0, "what was printed is what was given");
    check(r.received == stream_length && memcmp(gathered, stream, stream_length) == 0, "the stream is gathered");
    trace[at] ^= 1;
    r = replayed();
    check(r.number == LUBDHVANI_DONE && r.event == third, "the print that differs is named");
    const struct lubdhvani_stood_there s = stood_at(third);
    check(s.number == LUBDHVANI_DONE && s.length > 0 && s.printed == s.length && s.place + s.printed == at + 1, "and can be shown");
    check(memcmp(s.line, trace + s.place, s.length - 1) == 0 && s.line[s.length - 1] == (trace[at] ^ 1), "beside the line given");
    check(all_are(0, s.line + s.length, sizeof s.line - s.length) && all_are(0, s.zeros, sizeof s.zeros), "with zeros behind it");
    check(stood_at(third - 1).length == 0 && stood_at(0).received == 0 && stood_at(events + 1).received == stream_length, "a request is no print");
    record(LUBDHVANI_PRINTED, NULL, 0);
    r = replayed();
    check(r.number == LUBDHVANI_NO_LINE && r.event == events && r.received == stream_length, "a print with no line is the fault, after a difference too");
    record(LUBDHVANI_ASKED_FOR, NULL, 0);
    trace[trace_length - 1] = 1;
    check(replayed().event == events - 1, "the first event at fault decides");
    r = lubdhvani_replay(trace, trace_length, key, sizeof key, font, sizeof font, LUBDHVANI_EDITION_ONE, LUBDHVANI_LAYOUT_NEITHER, gathered,
                         sizeof gathered - 1);
    check(r.number == LUBDHVANI_NO_ROOM && r.event == 0 && r.received == 0, "a buffer of 65,535 bytes");
}

int main(void)
{
    check(lubdhvani_version() == LUBDHVANI_VERSION, "library and header are of one version");
    check(LUBDHVANI_VERSION == VERSION_TOLD, "it is the one of the file VERSION");
    check(lubdhvani_digest(1, font_file, sizeof font_file - 1, font, sizeof font).number == LUBDHVANI_DONE, "the font is digested");
    check_permutation();
    check_digest();
    check_running();
    check_seal();
    check_instances();
    check_trade();
    check_layouts();
    check_accept();
    check_bundle();
    compose();
    press();
    check_walker();
    check_refused_call();
    check_index();
    check_replay();
    puts(wrong ? "client-c: not as expected" : "client-c: all as expected");
    return wrong;
}
