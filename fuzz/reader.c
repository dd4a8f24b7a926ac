/* A fuzzer for writers, reader and converter, over include/lubdhvani.h (libFuzzer). An input is what the reader is told, a place, and either
 * a stream or a recipe for one: frames written, frames with something wrong, raw bytes, damage; or frames joined with fillers. The stream is
 * read to its end, and every answer is held to the rules of the header. fuzz/README.md says what this can and can't see. */
#define _DEFAULT_SOURCE
#include "given.h"
#include "lubdhvani.h"

#include <stdio.h>
#include <stdlib.h>
#include <string.h>
#include <sys/mman.h>

/* BETWEEN is how many digits stand between two transit symbols, LAYOUT_BESIDE what a layout has beside its account digits, ESCAPED what is
 * XORed into a byte behind an escape, UNTOUCHED what stands in a buffer before a call, MOST the longest stream made here, MORE_ROOM what a line
 * buffer has at most beyond the longest line. */
enum {
    MARK = 0x7E,
    TRANSIT = 'A',
    ON_US = 'C',
    BETWEEN = 9,
    LAYOUT_BESIDE = BETWEEN + 3,
    ESCAPE = 0x7D,
    ESCAPED = 0x20,
    UNTOUCHED = 0xA5,
    PAGE = 4096,
    CANARY = 64,
    MOST = LUBDHVANI_LONGEST_INPUT + 1,
    MORE_ROOM = 8
};

/* A body is four fields, each a head (tag, then length with the high byte first) and a value; in edition two JOB_FIELD bytes more stand
 * behind field 02. Here are the places of field 02 and of what follows it, and of what is in these. Field 02 whole, with that of the job,
 * is the associated data. */
enum {
    HEAD = 3,
    NONCE_AT = HEAD,
    FIELD_2 = NONCE_AT + LUBDHVANI_NONCE,
    FONT_AT = FIELD_2 + HEAD,
    BEHIND_2 = FONT_AT + LUBDHVANI_DIGEST,
    JOB_AT = BEHIND_2 + HEAD,
    JOB_FIELD = HEAD + LUBDHVANI_JOB,
    LONGEST_BODY = BEHIND_2 + JOB_FIELD + HEAD + LUBDHVANI_LONGEST_LINE + HEAD + LUBDHVANI_SEAL
};

/* By edition: where field 03 and the line stand, the length of the associated data, the bytes that a body has besides the line's, the room of
 * a frame, and the calls that sealing and opening take besides one for each byte of the line. */
struct shape {
    size_t field_3, line_at, associated, beside_line, room, calls;
};

static struct shape shape_of(int two)
{
    const size_t more = two ? JOB_FIELD : 0, field_3 = BEHIND_2 + more;
    return (struct shape){field_3, field_3 + HEAD, field_3 - FIELD_2, field_3 + 2 * HEAD + LUBDHVANI_SEAL, LUBDHVANI_FRAME + 2 * more,
                          field_3 - FIELD_2 + 4};
}

/* libFuzzer keeps an input that moves one of these: what the answers were, since the library itself has no counters. First each number
 * after each other number or none, then the lengths of lines, then those of stretches, the longest all as one, then the layouts of lines. */
enum {
    MET_NUMBERS = 32,
    MET_NONE = MET_NUMBERS - 1,
    MET_LINES = MET_NUMBERS * MET_NUMBERS,
    MET_STRETCHES = MET_LINES + 128,
    MET_LONGEST = 300,
    MET_LAYOUTS = MET_STRETCHES + MET_LONGEST + 1
};
__attribute__((section("__libfuzzer_extra_counters"))) static uint8_t met[2048];

/* How often each number was met, lines apart from the end of the stream; printed at the end. */
static unsigned long lines_met, numbers_met[LUBDHVANI_OTHER_LAYOUT + 1];

static void print_met(void)
{
    printf("fuzz: lines %lu, ends %lu; refused", lines_met, numbers_met[LUBDHVANI_DONE]);
    for (size_t i = 1; i <= LUBDHVANI_OTHER_LAYOUT; i++)
        if (numbers_met[i] > 0)
            printf(", %zu: %lu times", i, numbers_met[i]);
    puts("");
}

static uint8_t key[LUBDHVANI_KEY], other_key[LUBDHVANI_KEY], font[LUBDHVANI_DIGEST], other_font[LUBDHVANI_DIGEST];
static const struct lubdhvani_asked everything = {.editions = LUBDHVANI_BOTH_EDITIONS, .allowed = LUBDHVANI_ALL_WORK};

/* The stream under way. What does not fit is left out. */

static uint8_t building[MOST];
static size_t built;

static void append(const uint8_t *bytes, size_t length)
{
    if (length > MOST - built)
        length = MOST - built;
    memcpy(building + built, bytes, length);
    built += length;
}

static int is_digit(uint8_t byte)
{
    return byte >= '0' && byte <= '9';
}

static int listed(uint8_t byte)
{
    return is_digit(byte) || (byte >= 'A' && byte <= 'D') || byte == ' ';
}

static size_t digits(const uint8_t *line, size_t length)
{
    size_t met = 0;
    for (size_t i = 0; i < length; i++)
        met += is_digit(line[i]);
    return met;
}

/* A layout is the whole line: transit, nine digits, transit, account digits, on-us. No line has what is no layout. */
static int has_layout(const uint8_t *line, size_t length, size_t layout)
{
    const size_t account = layout == LUBDHVANI_LAYOUT_A ? 10 : layout == LUBDHVANI_LAYOUT_B ? 12 : 0;
    if (layout == LUBDHVANI_LAYOUT_NEITHER)
        return 1;
    return account > 0 && length == LAYOUT_BESIDE + account && line[0] == TRANSIT && line[BETWEEN + 1] == TRANSIT &&
           line[length - 1] == ON_US && digits(line, length) == BETWEEN + account;
}

/* The number of the line's rule: transit symbols none, or two with nine digits between; then the layout. */
static uint32_t ruled(const uint8_t *line, size_t length, size_t layout)
{
    size_t transits = 0, first = 0, last = 0;
    for (size_t i = 0; i < length; i++) {
        if (!listed(line[i]))
            return LUBDHVANI_UNLISTED;
        if (line[i] != TRANSIT)
            continue;
        first = transits == 0 ? i : first;
        last = i;
        transits++;
    }
    if (digits(line, length) == 0)
        return LUBDHVANI_NOT_TRADE;
    const int enclosed = last - first == BETWEEN + 1 && digits(line + first + 1, BETWEEN) == BETWEEN;
    if (transits != 0 && !(transits == 2 && enclosed))
        return LUBDHVANI_NOT_TRADE;
    return has_layout(line, length, layout) ? LUBDHVANI_DONE : LUBDHVANI_OTHER_LAYOUT;
}

static void append_framed(const uint8_t *body, size_t length)
{
    static const uint8_t mark = MARK;
    append(&mark, 1);
    for (size_t i = 0; i < length; i++) {
        const uint8_t pair[2] = {ESCAPE, body[i] ^ ESCAPED};
        if (body[i] == MARK || body[i] == ESCAPE)
            append(pair, 2);
        else
            append(body + i, 1);
    }
    append(&mark, 1);
}

/* A field's tag and length. */
static void put_head(uint8_t *at, uint8_t tag, size_t length)
{
    at[0] = tag;
    at[1] = (uint8_t)(length >> 8);
    at[2] = (uint8_t)length;
}

/* What is each frame's own: in edition two a job beside the nonce. */
struct own {
    int two;
    uint8_t nonce[LUBDHVANI_NONCE], job[LUBDHVANI_JOB];
};

/* A body with everything as it must be but for its line, which may hold any bytes. */
static size_t sealed_body(const struct own *own, const uint8_t *line, size_t n, uint8_t body[LONGEST_BODY])
{
    const struct shape shape = shape_of(own->two);
    uint8_t *const at = body + shape.line_at;
    put_head(body, 1, LUBDHVANI_NONCE);
    memcpy(body + NONCE_AT, own->nonce, LUBDHVANI_NONCE);
    put_head(body + FIELD_2, 2, LUBDHVANI_DIGEST);
    memcpy(body + FONT_AT, font, LUBDHVANI_DIGEST);
    if (own->two) {
        put_head(body + BEHIND_2, 5, LUBDHVANI_JOB);
        memcpy(body + JOB_AT, own->job, LUBDHVANI_JOB);
    }
    put_head(body + shape.field_3, 3, n);
    put_head(at + n, 4, LUBDHVANI_SEAL);
    const struct lubdhvani_counted sealed = lubdhvani_seal(1, key, LUBDHVANI_KEY, own->nonce, LUBDHVANI_NONCE, body + FIELD_2, shape.associated,
                                                           line, n, at, n, at + n + HEAD, LUBDHVANI_SEAL);
    must(sealed.number == LUBDHVANI_DONE, "a line is sealed");
    must(sealed.calls == n + shape.calls, "the calls of sealing a line");
    return shape.beside_line + n;
}

/* The writer of an edition, with just the room that it asks for. */
static struct lubdhvani_framed written(const uint8_t *its_key, const uint8_t *its_font, size_t layout, const struct own *own,
                                       const uint8_t *line, size_t n, uint8_t *frame)
{
    const size_t room = shape_of(own->two).room;
    if (own->two)
        return lubdhvani_write_two(its_key, LUBDHVANI_KEY, own->nonce, LUBDHVANI_NONCE, its_font, LUBDHVANI_DIGEST, layout, own->job,
                                   LUBDHVANI_JOB, line, n, frame, room);
    return lubdhvani_write(its_key, LUBDHVANI_KEY, own->nonce, LUBDHVANI_NONCE, its_font, LUBDHVANI_DIGEST, layout, line, n, frame, room);
}

/* A job as a reading tells it, its high byte first; none is zero. */
static size_t job_number(const struct own *own)
{
    size_t number = 0;
    for (size_t i = 0; own->two && i < LUBDHVANI_JOB; i++)
        number = number << 8 | own->job[i];
    return number;
}

/* No two orders share a frame (order W13): with one field changed, nonce, font digest, a digit of the line, or job or edition, the writer makes
 * another frame. The seal's last bytes choose what is changed. */
static void check_apart(const uint8_t *its_key, const uint8_t *its_font, size_t layout, const struct own *own, const uint8_t *line, size_t n,
                        const uint8_t *frame, size_t length)
{
    const uint8_t field = frame[length - 2], at = frame[length - 3], bit = (uint8_t)(1 << field / 4 % 8);
    uint8_t its_line[LUBDHVANI_LONGEST_LINE], digest[LUBDHVANI_DIGEST], other[LUBDHVANI_FRAME_TWO];
    struct own its_own = *own;
    memcpy(its_line, line, n);
    memcpy(digest, its_font, sizeof digest);
    switch (field % 4) {
    case 0:
        its_own.nonce[at % LUBDHVANI_NONCE] ^= bit;
        break;
    case 1:
        digest[at % LUBDHVANI_DIGEST] ^= bit;
        break;
    case 2: /* a line that was written has a digit, and another one in its place makes a line too */
        for (size_t i = at;; i++)
            if (is_digit(its_line[i % n])) {
                its_line[i % n] = (uint8_t)('0' + (its_line[i % n] - '0' + 1) % 10);
                break;
            }
        break;
    default:
        if (own->two)
            its_own.job[at % LUBDHVANI_JOB] ^= bit;
        else
            its_own.two = 1;
    }
    const struct lubdhvani_framed f = written(its_key, digest, layout, &its_own, its_line, n, other);
    must(f.number == LUBDHVANI_DONE, "an order with one field changed is written too");
    must(f.length != length || memcmp(other, frame, length) != 0, "no two orders share a frame");
}

/* The writer; what it wrote is read back alone, under the same layout. */
static void write_line(const uint8_t *its_key, const uint8_t *its_font, size_t layout, const struct own *own, const uint8_t *line, size_t n)
{
    const struct shape shape = shape_of(own->two);
    uint8_t frame[LUBDHVANI_FRAME_TWO + CANARY], back[LUBDHVANI_LONGEST_LINE];
    memset(frame, UNTOUCHED, sizeof frame);
    const struct lubdhvani_framed f = written(its_key, its_font, layout, own, line, n, frame);

    uint32_t expected = n < 1 || n > LUBDHVANI_LONGEST_LINE ? LUBDHVANI_TOO_LONG : ruled(line, n, layout);
    must(f.number == expected, "the writer's number");
    must(f.number == LUBDHVANI_DONE ? f.calls == n + shape.calls && f.length >= shape.beside_line + n + 2 && f.length <= shape.room
                                    : f.calls == 0 && f.length == 0,
         "the writer's length and calls");
    for (size_t i = f.length; i < sizeof frame; i++)
        must(frame[i] == UNTOUCHED, "the writer writes the frame only");
    if (f.number != LUBDHVANI_DONE)
        return;
    struct lubdhvani_asked asked = everything;
    asked.layout = layout;
    const struct lubdhvani_reading r =
        lubdhvani_read(frame, f.length, 0, its_key, LUBDHVANI_KEY, its_font, LUBDHVANI_DIGEST, asked, back, sizeof back);
    must(r.outcome == LUBDHVANI_LINE && r.number == LUBDHVANI_DONE && r.first == 1 && r.closing == f.length - 1 && r.length == n &&
             memcmp(back, line, n) == 0,
         "a line that was written is read");
    must(r.edition == 1u + (own->two != 0) && r.job == job_number(own), "with its edition and its job");
    check_apart(its_key, its_font, layout, own, line, n, frame, f.length);
    append(frame, f.length);
}

static void damage(void)
{
    uint8_t kind = take();
    size_t at = built - 1 - take_two() % built;
    uint8_t byte = take();
    switch (kind % 6) {
    case 0: /* a bit flipped */
        building[at] ^= (uint8_t)(1 << byte % 8);
        break;
    case 1: /* another byte */
        building[at] = byte;
        break;
    case 2: /* a mark or an escape */
        building[at] = byte % 2 ? MARK : ESCAPE;
        break;
    case 3: /* a byte lost */
        memmove(building + at, building + at + 1, built - at - 1);
        built--;
        break;
    default: /* a byte doubled, or one put in */
        if (built < MOST) {
            memmove(building + at + 1, building + at, built - at);
            built++;
            if (kind % 6 == 5)
                building[at] = byte % 2 ? MARK : ESCAPE;
        }
    }
}

static struct own take_own(void)
{
    struct own own = {.two = take() & 1};
    for (size_t i = 0; i < LUBDHVANI_NONCE; i++)
        own.nonce[i] = take();
    for (size_t i = 0; own.two && i < LUBDHVANI_JOB; i++)
        own.job[i] = take();
    return own;
}

/* Mostly neither or one that lines have; else any number, some of them a layout only in their last 32 bits. */
static size_t take_layout(void)
{
    const uint8_t how = take();
    return how % 8 < 6 ? how % 3 : how % 8 == 6 ? how : (size_t)1 << 32 | how % 3;
}

/* The symbols of a layout where they belong, and digits everywhere else: nine to thirteen account digits, so that A and B are missed by one. */
static size_t lay_out(uint8_t *line, size_t n)
{
    enum { LEAST = 9, MOST_DIGITS = 13 };
    n = LAYOUT_BESIDE + LEAST + n % (MOST_DIGITS - LEAST + 1);
    for (size_t i = 0; i < n; i++)
        line[i] = (uint8_t)('0' + line[i] % 10);
    line[0] = line[BETWEEN + 1] = TRANSIT;
    line[n - 1] = ON_US;
    return n;
}

/* Any bytes, or listed ones only; these mostly without transit symbols, or with two around digits where there is room, or as a layout has them.
 * Gives the line's length, which is another where it is laid out. */
static size_t take_line(uint8_t *line, size_t n, int any)
{
    static const char all[] = "0123456789BCD A";
    const uint8_t how = take();
    for (size_t i = 0; i < n; i++) {
        line[i] = take();
        if (!any)
            line[i] = (uint8_t)all[line[i] % (sizeof all - 1 - (how % 4 != 0))];
    }
    if (!any && (how & 0xC0) == 0xC0)
        return lay_out(line, n);
    const size_t between = how % 16 == 1 ? BETWEEN - 1 : how % 16 == 2 ? BETWEEN + 1 : BETWEEN;
    if (any || how % 2 == 0 || n < between + 2)
        return n;
    uint8_t *at = line + how % (n - between - 1);
    for (size_t i = 1; i <= between; i++)
        at[i] = (uint8_t)('0' + at[i] % 10);
    at[0] = at[between + 1] = TRANSIT;
    return n;
}

/* What a recipe can ask for. The order says which, and in its other bits how. */

/* The writer's frame of a line, which may be too long: as it should be, under another key or for another font, under some layout. */
static void append_written(uint8_t order)
{
    uint8_t line[LUBDHVANI_LONGEST_LINE + 3] = {0};
    const struct own own = take_own();
    const size_t layout = take_layout();
    size_t n = take() % sizeof line;
    n = take_line(line, n, order >= 0xE0);
    write_line(order % 8 == 1 ? other_key : key, order % 8 == 2 ? other_font : font, layout, &own, line, n);
}

/* A line sealed as it should be; perhaps with one byte of the body changed, or the body cut short. */
static void append_sealed(uint8_t order)
{
    uint8_t line[LUBDHVANI_LONGEST_LINE] = {0}, body[LONGEST_BODY];
    const struct own own = take_own();
    size_t n = 1 + take() % LUBDHVANI_LONGEST_LINE;
    n = take_line(line, n, order & 0x10);
    n = sealed_body(&own, line, n, body);
    if (order & 0x20) {
        uint8_t change = take();
        body[take() % n] ^= change;
    }
    append_framed(body, order & 0x40 ? take() % (n + 1) : n);
}

static void append_input(void)
{
    for (size_t n = take(); n > 0 && input_left > 0; n--) {
        uint8_t byte = take();
        append(&byte, 1);
    }
}

static void append_run(uint8_t order)
{
    size_t n = order & 0x80 ? take_two() : take() + 100u;
    for (uint8_t byte = order & 0x40 ? MARK : take(); n > 0; n--)
        append(&byte, 1);
}

static void follow_recipe(void)
{
    while (input_left > 0 && built < MOST) {
        uint8_t order = take();
        switch (order % 8) {
        case 0:
        case 1:
        case 2:
            append_written(order);
            break;
        case 3:
            append_sealed(order);
            break;
        case 4:
            append_input();
            break;
        case 5:
            append_run(order);
            break;
        default:
            if (built > 0)
                damage();
        }
    }
}

/* What the reader is told besides a stream and a place: whose lines it shall read, and the room for one. */

struct told {
    const uint8_t *key, *font;
    size_t room;
    struct lubdhvani_asked asked;
};

/* What a stretch must be answered with: stuffing and fields are judged here, the seal by lubdhvani_open. */

struct judged {
    size_t number, length, calls;
    struct own own;
    uint8_t line[LUBDHVANI_LONGEST_LINE];
};

/* The body without its stuffing, and its length; 0 where the stuffing is bad. */
static int unstuffed(const uint8_t *stretch, size_t length, uint8_t body[LUBDHVANI_LONGEST_STRETCH], size_t *n)
{
    *n = 0;
    for (size_t i = 0; i < length; i++) {
        if (stretch[i] != ESCAPE)
            body[(*n)++] = stretch[i];
        else if (++i < length && (stretch[i] == (MARK ^ ESCAPED) || stretch[i] == (ESCAPE ^ ESCAPED)))
            body[(*n)++] = stretch[i] ^ ESCAPED;
        else
            return 0;
    }
    return 1;
}

static int is_head(const uint8_t *at, uint8_t tag, size_t length)
{
    uint8_t head[HEAD];
    put_head(head, tag, length);
    return memcmp(at, head, sizeof head) == 0;
}

/* The fields of an edition stand in the body with their tags and lengths, and nothing behind them. */
static int has_fields(const uint8_t *body, size_t n, int two)
{
    const struct shape shape = shape_of(two);
    if (n <= shape.beside_line || n > shape.beside_line + LUBDHVANI_LONGEST_LINE)
        return 0;
    const size_t line = n - shape.beside_line;
    return is_head(body, 1, LUBDHVANI_NONCE) && is_head(body + FIELD_2, 2, LUBDHVANI_DIGEST) &&
           (!two || is_head(body + BEHIND_2, 5, LUBDHVANI_JOB)) && is_head(body + shape.field_3, 3, line) &&
           is_head(body + shape.line_at + line, 4, LUBDHVANI_SEAL);
}

static struct judged judge(const uint8_t *stretch, size_t length, const struct told *told)
{
    struct judged j = {.number = LUBDHVANI_BAD_SHAPE};
    uint8_t body[LUBDHVANI_LONGEST_STRETCH];
    size_t n;

    if (length > LUBDHVANI_LONGEST_STRETCH)
        return j;
    if (!unstuffed(stretch, length, body, &n)) {
        j.number = LUBDHVANI_BAD_STUFFING;
        return j;
    }
    const int two = has_fields(body, n, 1);
    must(!(two && has_fields(body, n, 0)), "no body is of both editions");
    if (!(told->asked.editions & (two ? LUBDHVANI_EDITION_TWO : LUBDHVANI_EDITION_ONE)) || !has_fields(body, n, two))
        return j;
    const struct shape shape = shape_of(two);
    j.own.two = two;
    if (memcmp(body + FONT_AT, told->font, LUBDHVANI_DIGEST) != 0) {
        j.number = LUBDHVANI_OTHER_FONT;
        return j;
    }
    const size_t line = n - shape.beside_line;
    if (line + shape.calls > told->asked.allowed) {
        j.number = LUBDHVANI_OVER_WORK;
        return j;
    }
    memcpy(j.own.nonce, body + NONCE_AT, LUBDHVANI_NONCE);
    if (two)
        memcpy(j.own.job, body + JOB_AT, LUBDHVANI_JOB);
    const uint8_t *const at = body + shape.line_at;
    const struct lubdhvani_counted opened = lubdhvani_open(1, told->key, LUBDHVANI_KEY, j.own.nonce, LUBDHVANI_NONCE, body + FIELD_2,
                                                           shape.associated, at, line, at + line + HEAD, LUBDHVANI_SEAL, j.line, sizeof j.line);
    j.number = opened.number;
    j.calls = opened.calls;
    must(j.number == LUBDHVANI_DONE || j.number == LUBDHVANI_BAD_SEAL, "a ciphertext is opened or its seal is wrong");
    for (size_t i = j.number == LUBDHVANI_DONE ? line : 0; i < sizeof j.line; i++)
        must(j.line[i] == 0, "nothing is left of a message whose seal is wrong, and nothing stands behind one that was opened");
    if (j.number == LUBDHVANI_DONE)
        j.number = ruled(j.line, line, told->asked.layout);
    if (j.number == LUBDHVANI_DONE)
        j.length = line;
    return j;
}

/* The bytes between the marks are the ones that the writer makes for this line. */
static void check_rewritten(const struct judged *j, const struct told *told, const uint8_t *stretch, size_t length)
{
    uint8_t frame[LUBDHVANI_FRAME_TWO];
    const struct lubdhvani_framed f = written(told->key, told->font, told->asked.layout, &j->own, j->line, j->length, frame);
    must(f.number == LUBDHVANI_DONE, "a line given out can be written");
    must(f.length == length + 2 && memcmp(frame + 1, stretch, length) == 0, "a line is given out only for the writer's bytes");
}

/* The converter to an edition, with what it must leave alone. */
static struct lubdhvani_measured converted(const struct told *told, const uint8_t *stretch, size_t length, const struct own *own,
                                           uint8_t frame[LUBDHVANI_FRAME_TWO])
{
    memset(frame, UNTOUCHED, LUBDHVANI_FRAME_TWO);
    const size_t room = shape_of(own->two).room;
    const struct lubdhvani_measured c =
        own->two ? lubdhvani_to_two(stretch, length, told->key, LUBDHVANI_KEY, told->font, LUBDHVANI_DIGEST, told->asked.layout, own->nonce,
                                    LUBDHVANI_NONCE, own->job, LUBDHVANI_JOB, frame, room)
                 : lubdhvani_to_one(stretch, length, told->key, LUBDHVANI_KEY, told->font, LUBDHVANI_DIGEST, told->asked.layout, own->nonce,
                                    LUBDHVANI_NONCE, frame, room);
    for (size_t i = c.length; i < LUBDHVANI_FRAME_TWO; i++)
        must(frame[i] == UNTOUCHED, "the converter writes the frame only");
    return c;
}

/* A stretch handed to both calls of the converter, which are told the reader's layout. It is converted exactly where a reader of its edition
 * gives a line, else refused with that reader's number, or with 16; and going back gives the stretch byte for byte. */
static void check_converted(const struct told *told, const uint8_t *stretch, size_t length)
{
    for (int two = 0; two < 2; two++) {
        struct told both = *told;
        both.asked.editions = LUBDHVANI_BOTH_EDITIONS;
        both.asked.allowed = LUBDHVANI_ALL_WORK;
        const struct judged j = judge(stretch, length, &both);
        const struct own own = {.two = two, .nonce = {MARK, ESCAPE}, .job = {ESCAPE, MARK}};
        uint8_t frame[LUBDHVANI_FRAME_TWO], back[LUBDHVANI_FRAME_TWO];
        const struct lubdhvani_measured there = converted(told, stretch, length, &own, frame);
        const int shaped = j.number != LUBDHVANI_BAD_SHAPE && j.number != LUBDHVANI_BAD_STUFFING;
        must(there.number == (shaped && j.own.two == two ? LUBDHVANI_OTHER_EDITION : j.number), "the converter's number");
        must((there.length > 0) == (there.number == LUBDHVANI_DONE), "a frame is written exactly where the stretch is converted");
        if (there.length == 0)
            continue;
        const struct lubdhvani_measured again = converted(told, frame + 1, there.length - 2, &j.own, back);
        must(again.number == LUBDHVANI_DONE, "what was converted is converted back");
        must(again.length == length + 2 && back[0] == MARK && back[length + 1] == MARK && memcmp(back + 1, stretch, length) == 0,
             "going back gives the first frame");
    }
}

/* The stream stands just before a page that can't be touched. */
static uint8_t *lent_stream(void)
{
    enum { GROUND = (MOST / PAGE + 1) * PAGE };
    static uint8_t *ground;
    if (ground == NULL) {
        ground = mmap(NULL, GROUND + PAGE, PROT_READ | PROT_WRITE, MAP_PRIVATE | MAP_ANONYMOUS, -1, 0);
        must(ground != MAP_FAILED && mprotect(ground + GROUND, PAGE, PROT_NONE) == 0, "there is memory");
    }
    uint8_t *stream = ground + GROUND - built;
    memcpy(stream, building, built);
    return stream;
}

/* One answer of the reader; the line stands in the middle of `around`. */
struct reading {
    struct lubdhvani_reading is;
    uint8_t around[CANARY + LUBDHVANI_LONGEST_LINE + MORE_ROOM + CANARY];
};

/* A walker that stands at the place sees the same, and goes to where the reading ends. */
static void check_step(const uint8_t *stream, size_t place, const struct told *told, const struct reading *r)
{
    struct lubdhvani_walker walker = {.stream = stream, .length = built, .at = place};
    uint8_t line[LUBDHVANI_LONGEST_LINE + MORE_ROOM];
    memset(line, UNTOUCHED, sizeof line);
    const struct lubdhvani_reading step =
        lubdhvani_next(&walker, told->key, LUBDHVANI_KEY, told->font, LUBDHVANI_DIGEST, told->asked, line, told->room);
    must(memcmp(&step, &r->is, sizeof step) == 0 && memcmp(line, r->around + CANARY, told->room) == 0, "a walker reads what the read call reads");
    must(walker.stream == stream && walker.length == built && walker.at == step.closing, "and stands where that reading ends");
}

static struct reading read_once(const uint8_t *stream, size_t place, const struct told *told)
{
    struct reading r;
    memset(r.around, UNTOUCHED, sizeof r.around);
    r.is = lubdhvani_read(stream, built, place, told->key, LUBDHVANI_KEY, told->font, LUBDHVANI_DIGEST, told->asked, r.around + CANARY, told->room);
    for (size_t i = 0; i < sizeof r.around; i++)
        must((i >= CANARY && i < CANARY + r.is.length) || r.around[i] == UNTOUCHED, "the reader writes the line only");
    must(memcmp(stream, building, built) == 0, "the stream stays");
    check_step(stream, place, told, &r);
    must(r.is.number <= LUBDHVANI_BEYOND || r.is.number == LUBDHVANI_NOT_TRADE || r.is.number == LUBDHVANI_OVER_WORK ||
             r.is.number == LUBDHVANI_OTHER_LAYOUT,
         "a number of the table");
    must((r.is.outcome == LUBDHVANI_LINE) == (r.is.length > 0) && r.is.calls <= told->asked.allowed,
         "a line is told from the end, and no count is over what is allowed");
    *(r.is.length > 0 ? &lines_met : &numbers_met[r.is.number]) += 1;
    return r;
}

/* What the call must be refused with; 0 if it must not. */
static uint32_t refusal(size_t place, size_t room)
{
    return built > LUBDHVANI_LONGEST_INPUT ? LUBDHVANI_TOO_LONG
           : room < LUBDHVANI_LONGEST_LINE ? LUBDHVANI_NO_ROOM
           : place > built                 ? LUBDHVANI_BEYOND
                                           : 0;
}

static void check_end(const uint8_t *stream, size_t place, const struct reading *r)
{
    must(r->is.outcome == LUBDHVANI_END && r->is.number == LUBDHVANI_DONE && r->is.closing == built && r->is.length == 0 && r->is.calls == 0, "the end of the stream");
    for (size_t i = place, run = 0, opened = 0; i < built; i++) {
        must(!(opened && run > 0 && stream[i] == MARK), "no stretch is passed over at the end");
        run = stream[i] == MARK ? 0 : run + 1;
        opened |= stream[i] == MARK;
    }
}

static void check_places(const uint8_t *stream, size_t place, const struct reading *r)
{
    must(place < r->is.first && r->is.first < r->is.closing && r->is.closing < built, "places go up");
    must(stream[r->is.first - 1] == MARK && stream[r->is.closing] == MARK, "a stretch stands between marks");
    must(memchr(stream + r->is.first, MARK, r->is.closing - r->is.first) == NULL, "it holds none");
    for (size_t i = place + 1, opened = stream[place] == MARK; i < r->is.first - 1; i++) {
        must(!(opened && stream[i] != MARK), "no stretch is passed over");
        opened |= stream[i] == MARK;
    }
}

static void check_judged(const uint8_t *stream, const struct told *told, const struct reading *r)
{
    const size_t length = r->is.closing - r->is.first;
    const struct judged j = judge(stream + r->is.first, length, told);
    must(r->is.number == j.number && r->is.length == j.length && r->is.calls == j.calls, "the answer is the one its rules give");
    must(r->is.outcome == (j.number == LUBDHVANI_DONE ? LUBDHVANI_LINE : LUBDHVANI_STRETCH_REFUSED), "a line or a stretch refused");
    must(memcmp(r->around + CANARY, j.line, r->is.length) == 0, "the line is the one that was sealed");
    must(r->is.edition == (j.length == 0 ? 0 : 1u + (j.own.two != 0)) && r->is.job == (j.length == 0 ? 0 : job_number(&j.own)),
         "edition and job are the line's, and zero without one");
    check_converted(told, stream + r->is.first, length);
    if (r->is.length > 0) {
        check_rewritten(&j, told, stream + r->is.first, length);
        met[MET_LINES + r->is.length]++;
        met[MET_LAYOUTS + told->asked.layout]++;
    }
    met[MET_STRETCHES + (length > MET_LONGEST ? MET_LONGEST : length)]++;
}

/* Read alone, with nothing before its opening mark, a stretch is the same. */
static void check_alone(const uint8_t *stream, const struct told *told, const struct reading *r)
{
    uint8_t line[LUBDHVANI_LONGEST_LINE];
    const struct lubdhvani_reading alone = lubdhvani_read(stream + r->is.first - 1, built - r->is.first + 1, 0, told->key, LUBDHVANI_KEY,
                                                          told->font, LUBDHVANI_DIGEST, told->asked, line, sizeof line);
    must(alone.outcome == r->is.outcome && alone.number == r->is.number && alone.first == 1 && alone.closing == r->is.closing - r->is.first + 1 && alone.length == r->is.length &&
             alone.calls == r->is.calls && memcmp(line, r->around + CANARY, alone.length) == 0,
         "what stands before a mark changes nothing behind it");
}

static void read_all(const uint8_t *stream, size_t place, const struct told *told)
{
    for (size_t before = MET_NONE;;) {
        const struct reading r = read_once(stream, place, told);
        met[MET_NUMBERS * before + r.is.number]++;
        before = r.is.number;

        const uint32_t refused = refusal(place, told->room);
        if (refused != 0) {
            must(r.is.outcome == LUBDHVANI_CALL_REFUSED && r.is.number == refused && r.is.first == place && r.is.closing == place &&
                     r.is.length == 0 && r.is.calls == 0,
                 "the call is refused");
            return;
        }
        const struct lubdhvani_span next = lubdhvani_next_stretch(stream, built, place);
        must(r.is.first == next.first && r.is.closing == next.closing, "next_stretch finds the same");
        if (next.first == built) {
            check_end(stream, place, &r);
            return;
        }
        check_places(stream, place, &r);
        check_judged(stream, told, &r);
        check_alone(stream, told, &r);
        place = next.closing;
    }
}

/* The nonce of what stands between two marks is the one that is found here, where the bytes are the fields of a body. */
static void check_nonce(const uint8_t *stretch, size_t length)
{
    static const uint8_t none[LUBDHVANI_NONCE];
    uint8_t body[LUBDHVANI_LONGEST_STRETCH];
    size_t n;
    const struct lubdhvani_nonce_found its = lubdhvani_nonce(stretch, length);
    const int found = length <= LUBDHVANI_LONGEST_STRETCH && unstuffed(stretch, length, body, &n) && (has_fields(body, n, 0) || has_fields(body, n, 1));
    must(its.found == (found ? 1u : 0u), "a nonce is found exactly in the fields of a body");
    must(memcmp(its.bytes, found ? body + NONCE_AT : none, LUBDHVANI_NONCE) == 0, "it is that of the body, or zeros");
}

/* Accepting the stream (order W12): what it must answer, stretch by stretch as they are judged here, with all the work allowed. */
static void check_accepted(const uint8_t *stream, const struct told *told)
{
    static uint8_t seen[LUBDHVANI_MOST_STRETCHES][LUBDHVANI_NONCE];
    struct told all = *told;
    all.asked.allowed = LUBDHVANI_ALL_WORK;
    size_t number = LUBDHVANI_DONE, first = built, closing = built, count = 0, place = 0;
    struct lubdhvani_span next;

    for (size_t from = 0; (next = lubdhvani_next_stretch(stream, built, from)).first != built; from = next.closing)
        if (++count > LUBDHVANI_MOST_STRETCHES)
            break;
    if (built > LUBDHVANI_LONGEST_INPUT || count > LUBDHVANI_MOST_STRETCHES) {
        number = built > LUBDHVANI_LONGEST_INPUT ? LUBDHVANI_TOO_LONG : LUBDHVANI_TOO_MANY;
        first = closing = 0;
    } else {
        for (size_t lines = 0; number == LUBDHVANI_DONE && lines < count; lines++) {
            next = lubdhvani_next_stretch(stream, built, place);
            const struct judged j = judge(stream + next.first, next.closing - next.first, &all);
            number = j.number;
            check_nonce(stream + next.first, next.closing - next.first);
            for (size_t i = 0; number == LUBDHVANI_DONE && i < lines; i++)
                if (memcmp(seen[i], j.own.nonce, LUBDHVANI_NONCE) == 0)
                    number = LUBDHVANI_REPEATED;
            memcpy(seen[lines], j.own.nonce, LUBDHVANI_NONCE);
            if (number != LUBDHVANI_DONE) {
                first = next.first;
                closing = next.closing;
            }
            place = next.closing;
        }
    }
    const struct lubdhvani_accepted a =
        lubdhvani_accept(stream, built, told->key, LUBDHVANI_KEY, told->font, LUBDHVANI_DIGEST, told->asked.editions, told->asked.layout);
    must(a.number == number && a.first == first && a.closing == closing, "the stream is accepted, or its first stretch at fault is named");
}

/* Frames joined with fillers (order W13): what must be read, one by one. With no line it is a refusal. */

struct expected {
    size_t first, closing, length;
    struct own own;
    uint8_t line[LUBDHVANI_LONGEST_LINE];
};

/* A line that the writer takes under the layout. */
static size_t take_accepted(uint8_t *line, size_t layout)
{
    const int laid = layout != LUBDHVANI_LAYOUT_NEITHER;
    const size_t n = laid ? LAYOUT_BESIDE + (layout == LUBDHVANI_LAYOUT_A ? 10 : 12) : 1u + take() % LUBDHVANI_LONGEST_LINE;
    for (size_t i = 0; i < n; i++)
        line[i] = (uint8_t)('0' + take() % 10);
    if (laid) {
        line[0] = line[BETWEEN + 1] = TRANSIT;
        line[n - 1] = ON_US;
    }
    return n;
}

/* Appends a frame with its marks, or what stands between them alone. */
static struct expected append_made(const uint8_t *its_key, size_t layout, int marks)
{
    struct expected e = {.own = take_own()};
    uint8_t frame[LUBDHVANI_FRAME_TWO];
    e.length = take_accepted(e.line, layout);
    const struct lubdhvani_framed f = written(its_key, font, layout, &e.own, e.line, e.length, frame);
    must(f.number == LUBDHVANI_DONE, "a line that the rules take is written");
    e.first = built + (marks ? 1 : 0);
    e.closing = e.first + f.length - 2;
    append(marks ? frame : frame + 1, marks ? f.length : f.length - 2);
    return e;
}

/* The filler behind a frame: none, bytes of the input, more of them than a stretch may have, badly stuffed ones, or what stands between the
 * marks of a frame of another key, or of this one, which must be read as its line. */
static struct expected append_filler(size_t layout)
{
    enum { NONE, SOME, LONG, BAD, OF_OTHER_KEY, OF_THIS_KEY, KINDS };
    static const uint8_t zero = 0, escape = ESCAPE;
    const int kind = take() % KINDS;
    struct expected e = {.first = built};
    if (kind == OF_OTHER_KEY || kind == OF_THIS_KEY) {
        e = append_made(kind == OF_THIS_KEY ? key : other_key, layout, 0);
        e.length = kind == OF_THIS_KEY ? e.length : 0;
        return e;
    }
    for (size_t n = kind == NONE ? 0 : kind == LONG ? LUBDHVANI_LONGEST_STRETCH + 1u + take() : take(); n > 0; n--) {
        const uint8_t byte = take();
        append(byte == MARK ? &zero : &byte, 1);
    }
    if (kind == BAD)
        append(&escape, 1);
    e.closing = built;
    return e;
}

static void check_joined(size_t layout)
{
    enum { FRAMES = 4 };
    struct told told = {key, font, LUBDHVANI_LONGEST_LINE, everything};
    struct expected all[2 * FRAMES];
    size_t place = 0, n = 0;
    told.asked.layout = layout;
    for (size_t left = 1 + take() % FRAMES; left > 0; left--) {
        all[n++] = append_made(key, layout, 1);
        const struct expected filler = append_filler(layout);
        if (left > 1 && filler.first < filler.closing)
            all[n++] = filler;
    }
    const uint8_t *const stream = lent_stream();
    for (size_t i = 0; i < n; i++) {
        const struct expected *const e = &all[i];
        const struct reading r = read_once(stream, place, &told);
        must(r.is.first == e->first && r.is.closing == e->closing, "frames and fillers are read where they stand");
        must(r.is.outcome == (e->length > 0 ? LUBDHVANI_LINE : LUBDHVANI_STRETCH_REFUSED) && r.is.length == e->length &&
                 memcmp(r.around + CANARY, e->line, e->length) == 0,
             "a frame is read as its line, and a filler is refused unless it is what stands between the marks of one");
        must(e->length == 0 || (r.is.edition == 1u + (e->own.two != 0) && r.is.job == job_number(&e->own) &&
                                r.is.calls == e->length + shape_of(e->own.two).calls),
             "a joined line comes with its edition, job and calls");
        place = r.is.closing;
    }
    const struct reading r = read_once(stream, place, &told);
    must(r.is.outcome == LUBDHVANI_END && r.is.closing == built, "the filler behind the last frame leaves nothing");
}

/* An index of the stream: fresh, and from the stream cut off at a place and then whole; each entry is what the read call sees, and each look-up says so. */
static void check_index(const uint8_t *stream, size_t place, const struct told *told)
{
    static uint32_t table[LUBDHVANI_INDEX], grown[LUBDHVANI_INDEX];
    const struct lubdhvani_asked asked = {.editions = told->asked.editions, .allowed = LUBDHVANI_ALL_WORK, .layout = told->asked.layout};
    uint8_t line[LUBDHVANI_LONGEST_LINE];
    size_t from = 0, lines = 0;
    if (built > LUBDHVANI_LONGEST_INPUT)
        return;
    const struct lubdhvani_indexed up = lubdhvani_index_update(stream, built, told->key, LUBDHVANI_KEY, told->font, LUBDHVANI_DIGEST, asked.editions,
                                                               asked.layout, table, LUBDHVANI_INDEX, 0);
    struct lubdhvani_indexed part = lubdhvani_index_update(stream, place < built ? place : built, told->key, LUBDHVANI_KEY, told->font,
                                                           LUBDHVANI_DIGEST, asked.editions, asked.layout, grown, LUBDHVANI_INDEX, 0);
    if (part.number == LUBDHVANI_DONE) {
        part = lubdhvani_index_update(stream, built, told->key, LUBDHVANI_KEY, told->font, LUBDHVANI_DIGEST, asked.editions, asked.layout, grown,
                                      LUBDHVANI_INDEX, part.count);
        must(part.number == up.number, "an index brought up to date has the fresh build's number");
        must(up.number != LUBDHVANI_DONE || (part.count == up.count && memcmp(grown, table, up.count * sizeof *table) == 0), "and its entries");
    }
    must(up.number == LUBDHVANI_DONE || (up.number == LUBDHVANI_TOO_MANY && up.count == 0), "an index is built, or there are too many stretches");
    for (size_t i = 0; i < up.count; i++) {
        const struct lubdhvani_reading r =
            lubdhvani_read(stream, built, from, told->key, LUBDHVANI_KEY, told->font, LUBDHVANI_DIGEST, asked, line, sizeof line);
        const struct lubdhvani_entry e = lubdhvani_index_entry(table, LUBDHVANI_INDEX, up.count, i);
        must(e.there == 1 && e.place == r.first && e.number == r.number, "an entry is what the read call sees");
        if (r.outcome == LUBDHVANI_LINE)
            must(lubdhvani_index_line(table, LUBDHVANI_INDEX, up.count, ++lines).index == i, "a line is found by its count");
        from = r.closing;
    }
    must(lubdhvani_index_line(table, LUBDHVANI_INDEX, up.count, lines + 1).there == 0, "no line behind the last");
}

int LLVMFuzzerInitialize(int *argc, char ***argv)
{
    (void)argc;
    (void)argv;
    for (size_t i = 0; i < sizeof key; i++)
        key[i] = other_key[i] = (uint8_t)(0x10 + i);
    for (size_t i = 0; i < sizeof font; i++)
        font[i] = other_font[i] = (uint8_t)(0x70 + i); /* 7D and 7E are among them */
    other_key[sizeof key - 1] ^= 0x01;
    other_font[sizeof font - 1] ^= 0x80;
    atexit(print_met);
    return 0;
}

int LLVMFuzzerTestOneInput(const uint8_t *data, size_t size)
{
    give(data, size);
    built = 0;

    const uint8_t how = take();
    size_t place = take_two();
    const uint8_t work = take(), editions = take();
    const size_t layout = take_layout();
    if ((how & 0x07) == 0x06) {
        check_joined(layout % 3);
        return 0;
    }
    if (how & 0x01)
        append(input, input_left);
    else
        follow_recipe();
    place = how & 0x02 ? place % (built + 2) : 0;
    const struct told told = {
        (how & 0x0C) == 0x0C ? other_key : key,
        (how & 0x30) == 0x30 ? other_font : font,
        (how & 0xC0) == 0xC0 ? LUBDHVANI_LONGEST_LINE - 1 : LUBDHVANI_LONGEST_LINE + (how >> 6) * MORE_ROOM / 2u,
        {.editions = editions, .allowed = work & 0x80 ? work & 0x7F : LUBDHVANI_ALL_WORK, .layout = layout},
    };
    read_all(lent_stream(), place, &told);
    check_index(lent_stream(), place, &told);
    check_accepted(lent_stream(), &told);
    return 0;
}
