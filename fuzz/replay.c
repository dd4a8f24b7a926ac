/* A fuzzer for the calls of a replay, over include/lubdhvani.h (libFuzzer). An input is what both calls are told, and either a trace or a recipe for one:
 * frames written and received in pieces, requests, prints of lines that were written, raw events, long runs, damage. The trace is run again here, event by
 * event over lubdhvani_read, and every answer is held to that. fuzz/README.md says what this can and can't see. */
#define _DEFAULT_SOURCE
#include "given.h"
#include "lubdhvani.h"

#include <stdio.h>
#include <stdlib.h>
#include <string.h>
#include <sys/mman.h>

/* UNTOUCHED is what stands in the buffer before a call, MOST the longest trace made here, WRITTEN the most lines that are written for it, MORE_ROOM what the
 * buffer has at most beyond the least room. */
enum {
    HEAD = 3,
    UNTOUCHED = 0xA5,
    PAGE = 4096,
    MOST = 40 * PAGE,
    WRITTEN = 16,
    MORE_ROOM = 8,
    LIMIT = LUBDHVANI_LONGEST_INPUT
};

/* libFuzzer keeps an input that moves one of these: each number with each event of few at which it came, then what stood. */
enum { MET_EVENTS = 32, MET_NUMBERS = 32, MET_STOOD = MET_NUMBERS * MET_EVENTS };
__attribute__((section("__libfuzzer_extra_counters"))) static uint8_t met[MET_STOOD + 2 * LUBDHVANI_LONGEST_LINE];
static unsigned long same_met, differs_met, stood_met, numbers_met[MET_NUMBERS];

static void print_met(void)
{
    printf("fuzz: no difference %lu, a difference %lu, stood at an event %lu; refused", same_met, differs_met, stood_met);
    for (size_t i = 1; i < MET_NUMBERS; i++)
        if (numbers_met[i] > 0)
            printf(", %zu: %lu times", i, numbers_met[i]);
    puts("");
}

/* What both calls are told. */

struct told {
    size_t key_length, font_length, editions, layout, room;
};

static uint8_t key[LUBDHVANI_KEY + 1], other_key[LUBDHVANI_KEY], font[LUBDHVANI_DIGEST + 1];

/* The trace under way, and the bytes that the press has still to receive. What does not fit is left out. */

static uint8_t building[MOST], coming[LIMIT];
static size_t built, come;

static void record(uint8_t tag, const uint8_t *bytes, size_t length)
{
    if (length > 0xFFFF || built + HEAD + length > MOST)
        return;
    building[built] = tag;
    building[built + 1] = (uint8_t)(length >> 8);
    building[built + 2] = (uint8_t)length;
    if (length > 0)
        memcpy(building + built + HEAD, bytes, length);
    built += HEAD + length;
}

/* The lines written so far. */

static struct {
    uint8_t bytes[LUBDHVANI_LONGEST_LINE];
    size_t length;
} lines[WRITTEN];
static size_t written, printed;

/* A frame of digits, to come: under the key, or another. */
static void write_frame(uint8_t order)
{
    static const uint8_t job[LUBDHVANI_JOB] = {0x7D, 0x7E, 0, 1};
    uint8_t nonce[LUBDHVANI_NONCE], frame[LUBDHVANI_FRAME_TWO];
    const uint8_t *const its_key = order & 0x10 ? other_key : key;
    const size_t n = 1u + take() % LUBDHVANI_LONGEST_LINE;
    if (written == WRITTEN)
        return;
    for (size_t i = 0; i < n; i++)
        lines[written].bytes[i] = (uint8_t)('0' + (i + take()) % 10);
    lines[written].length = n;
    memset(nonce, take(), sizeof nonce);
    const uint8_t *const line = lines[written].bytes;
    const struct lubdhvani_framed f =
        order & 0x20 ? lubdhvani_write_two(its_key, LUBDHVANI_KEY, nonce, sizeof nonce, font, LUBDHVANI_DIGEST, LUBDHVANI_LAYOUT_NEITHER, job, sizeof job,
                                           line, n, frame, sizeof frame)
                     : lubdhvani_write(its_key, LUBDHVANI_KEY, nonce, sizeof nonce, font, LUBDHVANI_DIGEST, LUBDHVANI_LAYOUT_NEITHER, line, n, frame,
                                       sizeof frame);
    must(f.number == LUBDHVANI_DONE, "digits are written");
    if (f.length > sizeof coming - come)
        return;
    memcpy(coming + come, frame, f.length);
    come += f.length;
    written += its_key == key;
}

/* Some or all of what is to come arrives. */
static void receive(uint8_t order)
{
    const size_t n = order & 0x10 ? come : take_two() % (come + 1);
    record(LUBDHVANI_RECEIVED, coming, n);
    memmove(coming, coming + n, come - n);
    come -= n;
}

/* The next line that was written, or another one; perhaps with a byte changed, or cut off. */
static void print_line(uint8_t order)
{
    uint8_t line[LUBDHVANI_LONGEST_LINE];
    if (written == 0) {
        record(LUBDHVANI_PRINTED, NULL, 0);
        return;
    }
    const size_t which = (order & 0x10 ? take() : printed++) % written, n = lines[which].length;
    memcpy(line, lines[which].bytes, n);
    if (order & 0x20)
        line[take() % n] ^= 1;
    record(LUBDHVANI_PRINTED, line, order & 0x40 ? n - 1 : n);
}

static void run_of(uint8_t order)
{
    static uint8_t run[0xFFFF];
    const size_t n = order & 0x20 ? LIMIT / 2 : take_two();
    memset(run, order & 0x10 ? 0x7E : 'x', n);
    record(LUBDHVANI_RECEIVED, run, n);
}

static void raw_event(void)
{
    uint8_t bytes[255];
    const uint8_t tag = take(), n = take();
    for (size_t i = 0; i < n; i++)
        bytes[i] = take();
    record(tag, bytes, n);
}

static void follow_recipe(void)
{
    while (input_left > 0 && built < MOST) {
        const uint8_t order = take();
        switch (order % 8) {
        case 0:
            write_frame(order);
            break;
        case 1:
            receive(order);
            break;
        case 2:
        case 3:
            record(LUBDHVANI_ASKED_FOR, NULL, 0);
            break;
        case 4:
            print_line(order);
            break;
        case 5:
            run_of(order);
            break;
        case 6:
            raw_event();
            break;
        default:
            if (built > 0)
                building[take_two() % built] ^= take();
        }
    }
}

/* The trace run again: the press event by event, up to the first at fault or the event asked for. */

struct press {
    size_t number, event, differs, received, place, length, next;
    uint8_t line[LUBDHVANI_LONGEST_LINE];
    uint8_t stream[LIMIT];
};

/* A line asked for: the read call from place to place over what was received so far. */
static void ask(struct press *p, const struct told *told)
{
    const struct lubdhvani_asked asked = {.editions = told->editions, .allowed = LUBDHVANI_ALL_WORK, .layout = told->layout};
    struct lubdhvani_reading r;
    memset(p->line, 0, sizeof p->line);
    p->length = 0;
    do {
        r = lubdhvani_read(p->stream, p->received, p->place, key, LUBDHVANI_KEY, font, LUBDHVANI_DIGEST, asked, p->line, sizeof p->line);
        must(r.outcome != LUBDHVANI_CALL_REFUSED, "the press reads within what it received");
        if (r.outcome != LUBDHVANI_END)
            p->place = r.closing;
    } while (r.outcome == LUBDHVANI_STRETCH_REFUSED);
    if (r.outcome == LUBDHVANI_LINE)
        p->length = r.length;
}

/* One event of n bytes at a place of the trace, counted already; its number. */
static size_t carry_out(struct press *p, const uint8_t *at, size_t n, const struct told *told)
{
    switch (at[0]) {
    case LUBDHVANI_RECEIVED:
        if (n > LIMIT - p->received)
            return LUBDHVANI_TOO_LONG;
        memcpy(p->stream + p->received, at + HEAD, n);
        p->received += n;
        return LUBDHVANI_DONE;
    case LUBDHVANI_ASKED_FOR:
        if (n > 0)
            return LUBDHVANI_BAD_EVENT;
        ask(p, told);
        return LUBDHVANI_DONE;
    case LUBDHVANI_PRINTED:
        if (p->length == 0)
            return LUBDHVANI_NO_LINE;
        if (p->differs == 0 && (n != p->length || memcmp(at + HEAD, p->line, n) != 0))
            p->differs = p->event;
        p->length = 0;
        return LUBDHVANI_DONE;
    default:
        return LUBDHVANI_BAD_EVENT;
    }
}

/* The length of the field at a place, or more than is left where it is cut off. */
static size_t field_length(const uint8_t *trace, size_t at)
{
    return built - at < HEAD ? built : (size_t)(trace[at + 1] << 8 | trace[at + 2]);
}

static void run(struct press *p, const uint8_t *trace, size_t most, const struct told *told)
{
    memset(p, 0, offsetof(struct press, stream));
    while (p->next < built && p->event < most && p->number == LUBDHVANI_DONE) {
        const size_t n = field_length(trace, p->next);
        p->event++;
        if (built - p->next < HEAD || built - p->next - HEAD < n)
            p->number = LUBDHVANI_BAD_EVENT;
        else
            p->number = carry_out(p, trace + p->next, n, told);
        p->next += p->number == LUBDHVANI_DONE ? HEAD + n : 0;
    }
}

/* What a call is refused with before the trace is looked at, or 0. */
static size_t refusal(const struct told *told)
{
    return told->key_length != LUBDHVANI_KEY || told->font_length != LUBDHVANI_DIGEST ? LUBDHVANI_SIZES
           : told->room < LIMIT                                                      ? LUBDHVANI_NO_ROOM
                                                                                     : 0;
}

static uint8_t buffer[LIMIT + MORE_ROOM + 1], paint[LIMIT + MORE_ROOM + 1];

/* The buffer holds this stream, and is else as it was. */
static void check_buffer(const uint8_t *stream, size_t received)
{
    must(memcmp(buffer, stream, received) == 0, "the buffer holds what was received");
    must(memcmp(buffer + received, paint, sizeof buffer - received) == 0, "and is else as it was");
    memset(buffer, UNTOUCHED, received);
}

/* The number of events that were carried out, and the event that is named. */
struct events {
    size_t count, named;
};

static struct events check_replay(const uint8_t *trace, const struct told *told)
{
    static struct press p;
    p.event = 0;
    const size_t refused = refusal(told);
    const struct lubdhvani_replayed r =
        lubdhvani_replay(trace, built, key, told->key_length, font, told->font_length, told->editions, told->layout, buffer, told->room);
    if (refused != 0) {
        must(r.number == refused && r.event == 0 && r.received == 0, "the call is refused");
        check_buffer(buffer, 0);
    } else {
        run(&p, trace, SIZE_MAX, told);
        must(r.number == p.number, "the number of the first event at fault");
        must(r.event == (p.number == LUBDHVANI_DONE ? p.differs : p.event), "that event, or the first that differs");
        must(r.received == p.received, "as many bytes as were received");
        check_buffer(p.stream, p.received);
    }
    met[r.number * MET_EVENTS + r.event % MET_EVENTS]++;
    numbers_met[r.number]++;
    same_met += r.number == LUBDHVANI_DONE && r.event == 0;
    differs_met += r.number == LUBDHVANI_DONE && r.event > 0;
    return (struct events){p.event, r.event};
}

static void check_stood(const uint8_t *trace, size_t event, const struct told *told)
{
    static struct press p;
    const size_t refused = refusal(told);
    struct lubdhvani_stood_there expected;
    memset(&expected, 0, sizeof expected);
    expected.number = refused;
    const struct lubdhvani_stood_there s =
        lubdhvani_stood(trace, built, event, key, told->key_length, font, told->font_length, told->editions, told->layout, buffer, told->room);
    memset(&p, 0, offsetof(struct press, stream));
    if (refused == 0) {
        run(&p, trace, event == 0 ? 0 : event - 1, told);
        expected.received = p.received;
        const size_t left = built - p.next, n = field_length(trace, p.next);
        if (event > 0 && p.number == LUBDHVANI_DONE && left >= HEAD && left - HEAD >= n && trace[p.next] == LUBDHVANI_PRINTED && p.length > 0) {
            expected.length = p.length;
            expected.place = p.next + HEAD;
            expected.printed = n;
            memcpy(expected.line, p.line, p.length);
        }
    }
    must(memcmp(&s, &expected, sizeof s) == 0, "what stood at an event");
    check_buffer(p.stream, p.received);
    met[MET_STOOD + s.length]++;
    stood_met += s.length > 0;
}

/* The trace just before a page that can't be touched. */
static const uint8_t *lent_trace(void)
{
    static uint8_t *end;
    if (end == NULL) {
        uint8_t *const ground = mmap(NULL, MOST + PAGE, PROT_READ | PROT_WRITE, MAP_PRIVATE | MAP_ANONYMOUS, -1, 0);
        must(ground != MAP_FAILED && mprotect(ground + MOST, PAGE, PROT_NONE) == 0, "memory is there");
        end = ground + MOST;
    }
    memcpy(end - built, building, built);
    return end - built;
}

int LLVMFuzzerInitialize(int *argc, char ***argv)
{
    (void)argc;
    (void)argv;
    for (size_t i = 0; i < sizeof key; i++)
        key[i] = (uint8_t)(0x10 + i);
    memcpy(other_key, key, sizeof other_key);
    other_key[0] ^= 1;
    for (size_t i = 0; i < sizeof font; i++)
        font[i] = (uint8_t)(0x70 + i); /* 7D and 7E are among them */
    memset(buffer, UNTOUCHED, sizeof buffer);
    memset(paint, UNTOUCHED, sizeof paint);
    atexit(print_met);
    return 0;
}

int LLVMFuzzerTestOneInput(const uint8_t *data, size_t size)
{
    give(data, size);
    built = come = written = printed = 0;

    const uint8_t how = take(), event = take(), sizes = take();
    const struct told told = {
        LUBDHVANI_KEY - (sizes == 0x41) + (sizes == 0x42),
        LUBDHVANI_DIGEST - (sizes == 0x51) + (sizes == 0x42),
        how & 0x02 ? how >> 2 & 3 : LUBDHVANI_BOTH_EDITIONS,
        how & 0x10 ? how >> 5 : LUBDHVANI_LAYOUT_NEITHER,
        sizes == 0x42 || sizes == 0x61 ? LIMIT - 1u : LIMIT + sizes % (MORE_ROOM + 1u),
    };
    if (how & 0x01) {
        for (; input_left > 0; built++)
            building[built] = take();
    } else {
        follow_recipe();
    }
    const uint8_t *const trace = lent_trace();
    const struct events events = check_replay(trace, &told);
    check_stood(trace, events.named, &told);
    check_stood(trace, event == 0 ? SIZE_MAX : event % (events.count + 2), &told);
    return 0;
}
