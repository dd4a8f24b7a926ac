/* How much stack each call of include/lubdhvani.h and include/lubdhvani_desk.h takes: it is run on a painted stack, and what is no longer paint was used. Each is run
 * in a process of its own, whose first call of memcpy and memset it makes: where these are bound at their first call (lazy binding), the
 * binding takes stack too. The status is 1 if a call takes more than the header says. */
#define _XOPEN_SOURCE 700
#include "lubdhvani.h"
#include "lubdhvani_desk.h"

#include <stdio.h>
#include <sys/wait.h>
#include <ucontext.h>
#include <unistd.h>

enum { PAINT = 0xA5, PAINTED = 4 * LUBDHVANI_STACK };

/* Volatile, so that no compiler makes a call of memset or memcpy of these loops: that would bind them before the call that is measured. */
static volatile uint8_t stack[PAINTED];
static ucontext_t here, there;

static void fill(volatile uint8_t *bytes, size_t length, uint8_t byte)
{
    for (size_t i = 0; i < length; i++)
        bytes[i] = byte;
}

static uint8_t key[LUBDHVANI_KEY], nonce[LUBDHVANI_NONCE], job[LUBDHVANI_JOB], font[LUBDHVANI_DIGEST], seal[LUBDHVANI_SEAL];
static uint8_t state[LUBDHVANI_LARGEST_STATE], digest[LUBDHVANI_DIGEST], line[LUBDHVANI_LONGEST_LINE];
static uint8_t text[LUBDHVANI_LONGEST_TEXT], out[LUBDHVANI_LONGEST_TEXT], associated[LUBDHVANI_LONGEST_ASSOCIATED];
static uint8_t frame[LUBDHVANI_FRAME_TWO], other[LUBDHVANI_FRAME_TWO], stretch[LUBDHVANI_LONGEST_STRETCH + 2];
static uint8_t name[LUBDHVANI_LONGEST_NAME], rows[LUBDHVANI_BUNDLE_ROWS], bundle[LUBDHVANI_BUNDLE];
static size_t length, line_length = sizeof line, layout = LUBDHVANI_LAYOUT_NEITHER;
static struct lubdhvani_running running;
static struct lubdhvani_asked everything = {.editions = LUBDHVANI_BOTH_EDITIONS, .allowed = LUBDHVANI_ALL_WORK};

static void permute(void) { lubdhvani_permute(state, sizeof state, LUBDHVANI_MOST_ROUNDS); }
static void unpermute(void) { lubdhvani_unpermute(state, sizeof state, LUBDHVANI_MOST_ROUNDS); }
static void digest_one(void) { lubdhvani_digest(1, text, sizeof text, digest, sizeof digest); }
static void digest_last(void) { lubdhvani_digest(LUBDHVANI_INSTANCES, text, sizeof text, digest, sizeof digest); }
static void start_one(void) { lubdhvani_start(&running, 1); }
static void start_last(void) { lubdhvani_start(&running, LUBDHVANI_INSTANCES); }
static void feed_text(void) { lubdhvani_feed(&running, text, sizeof text); }
static void finish(void) { lubdhvani_finish(&running, digest, sizeof digest); }
static void seal_text(void)
{
    lubdhvani_seal(1, key, sizeof key, nonce, sizeof nonce, associated, sizeof associated, text, sizeof text, out, sizeof out, seal,
                   sizeof seal);
}
static void open_text(void)
{
    lubdhvani_open(1, key, sizeof key, nonce, sizeof nonce, associated, sizeof associated, text, sizeof text, seal, sizeof seal, out,
                   sizeof out);
}
static void write_line(void)
{
    length = lubdhvani_write(key, sizeof key, nonce, sizeof nonce, font, sizeof font, layout, line, line_length, frame, sizeof frame).length;
}
static void write_two(void)
{
    length = lubdhvani_write_two(key, sizeof key, nonce, sizeof nonce, font, sizeof font, layout, job, sizeof job, line, line_length, frame,
                                 sizeof frame)
                 .length;
}
static void converted_to_one(const uint8_t *from, size_t n)
{
    lubdhvani_to_one(from, n, key, sizeof key, font, sizeof font, layout, nonce, sizeof nonce, other, sizeof other);
}
static void converted_to_two(const uint8_t *from, size_t n)
{
    lubdhvani_to_two(from, n, key, sizeof key, font, sizeof font, layout, nonce, sizeof nonce, job, sizeof job, other, sizeof other);
}
static void to_one_line(void) { converted_to_one(frame + 1, length - 2); }
static void to_two_line(void) { converted_to_two(frame + 1, length - 2); }
static void to_one_stretch(void) { converted_to_one(stretch + 1, sizeof stretch - 2); }
static void to_two_stretch(void) { converted_to_two(stretch + 1, sizeof stretch - 2); }
static void bundle_write(void) { length = lubdhvani_bundle_write(name, sizeof name, rows, sizeof rows, bundle, sizeof bundle).length; }
static void bundle_read(void) { lubdhvani_bundle_read(bundle, length); }
static void bundle_digest(void) { lubdhvani_bundle_digest(bundle, length, digest, sizeof digest); }
static void bundle_rows(void) { lubdhvani_bundle_rows(bundle, length, '7'); }
static void next_stretch(void) { lubdhvani_next_stretch(stretch, sizeof stretch, 0); }
static void read_frame(void)
{
    lubdhvani_read(frame, length, 0, key, sizeof key, font, sizeof font, everything, line, sizeof line);
}
static void next_frame(void)
{
    struct lubdhvani_walker walker = {.stream = frame, .length = length};
    lubdhvani_next(&walker, key, sizeof key, font, sizeof font, everything, line, sizeof line);
}
static void next_read_stretch(void)
{
    struct lubdhvani_walker walker = {.stream = stretch, .length = sizeof stretch};
    lubdhvani_next(&walker, key, sizeof key, font, sizeof font, everything, line, sizeof line);
}
static void read_stretch(void)
{
    lubdhvani_read(stretch, sizeof stretch, 0, key, sizeof key, font, sizeof font, everything, line, sizeof line);
}

static void accept_frame(void) { lubdhvani_accept(frame, length, key, sizeof key, font, sizeof font, LUBDHVANI_BOTH_EDITIONS, layout); }
static void accept_stretch(void)
{
    lubdhvani_accept(stretch, sizeof stretch, key, sizeof key, font, sizeof font, LUBDHVANI_BOTH_EDITIONS, layout);
}
static void nonce_frame(void) { lubdhvani_nonce(frame + 1, length - 2); }
static void nonce_stretch(void) { lubdhvani_nonce(stretch + 1, sizeof stretch - 2); }
/* A trace of what is read, a request and a print. */
static uint8_t trace[3 + LUBDHVANI_FRAME_TWO + 6], gathered[LUBDHVANI_LONGEST_INPUT];
static void traced(const uint8_t *from, size_t n, int stood)
{
    volatile uint8_t *to = trace;
    fill(trace, sizeof trace, 0);
    to[0] = LUBDHVANI_RECEIVED;
    to[1] = (uint8_t)(n / 256);
    to[2] = (uint8_t)(n % 256);
    for (size_t i = 0; i < n; i++)
        to[3 + i] = from[i];
    to[3 + n] = LUBDHVANI_ASKED_FOR;
    to[6 + n] = LUBDHVANI_PRINTED;
    if (stood)
        lubdhvani_stood(trace, n + 9, 3, key, sizeof key, font, sizeof font, LUBDHVANI_BOTH_EDITIONS, layout, gathered, sizeof gathered);
    else
        lubdhvani_replay(trace, n + 9, key, sizeof key, font, sizeof font, LUBDHVANI_BOTH_EDITIONS, layout, gathered, sizeof gathered);
}
static void replay_frame(void) { traced(frame, length, 0); }
static void replay_stretch(void) { traced(stretch, sizeof stretch, 0); }
static void stood_frame(void) { traced(frame, length, 1); }
static void stood_stretch(void) { traced(stretch, sizeof stretch, 1); }
static uint32_t table[LUBDHVANI_INDEX];
static void indexed(const uint8_t *from, size_t n)
{
    lubdhvani_index_update(from, n, key, sizeof key, font, sizeof font, LUBDHVANI_BOTH_EDITIONS, layout, table, LUBDHVANI_INDEX, 0);
}
static void index_frame(void) { indexed(frame, length); }
static void index_stretch(void) { indexed(stretch, sizeof stretch); }
static void index_entry(void) { lubdhvani_index_entry(table, LUBDHVANI_INDEX, LUBDHVANI_INDEX, LUBDHVANI_INDEX - 1); }
static void index_line(void) { lubdhvani_index_line(table, LUBDHVANI_INDEX, LUBDHVANI_INDEX, LUBDHVANI_INDEX); }

/* The desk, with an entry that names the first stretch. */
static const uint32_t first_place[LUBDHVANI_INDEX] = {256}, first_entry[] = {0};
static void reworked(const uint8_t *from, size_t n)
{
    lubdhvani_desk_copy(from, n, key, sizeof key, font, sizeof font, LUBDHVANI_BOTH_EDITIONS, layout, first_place, LUBDHVANI_INDEX, 1, first_entry, 1, out,
                        sizeof out);
}
static void desk_frame(void) { reworked(frame, length); }
static void desk_stretch(void) { reworked(stretch, sizeof stretch); }

/* Stretches of the greatest length: two bytes again and again, and a last one of its own. */
static void longest(uint8_t even, uint8_t odd, uint8_t last)
{
    size_t end = sizeof stretch - 1;
    for (size_t i = 1; i < end; i++)
        ((volatile uint8_t *)stretch)[i] = i % 2 ? even : odd;
    stretch[end - 1] = last;
    stretch[0] = stretch[end] = 0x7E;
}
static void plain(void) { longest('A', 'A', 'A'); }
static void escapes(void) { longest(0x7D, 0x5E, 0x5E); }
static void dangling(void) { longest('A', 'A', 0x7D); }
static void bad_escape(void) { longest(0x7D, 0x5E, 'A'); }
static void nothing(void) {}
static void a_line(void)
{
    fill(line, sizeof line, '7');
}
/* The line of the longest layout, which is then named to every call. */
static void a_line_of_b(void)
{
    static const char of_b[] = "A123456789A012345678901C";
    line_length = sizeof of_b - 1;
    for (size_t i = 0; i < line_length; i++)
        ((volatile uint8_t *)line)[i] = (uint8_t)of_b[i];
    layout = everything.layout = LUBDHVANI_LAYOUT_B;
}
/* Rows in which no two glyphs are alike, and the bundle of them. */
static void glyphs(void)
{
    for (size_t i = 0; i < sizeof rows; i++)
        ((volatile uint8_t *)rows)[i] = (uint8_t)i;
}
static void a_bundle(void)
{
    glyphs();
    bundle_write();
}
/* A frame of the longest line. Writing it binds memcpy, so a call that reads it is measured without the binding. */
static void a_frame(void)
{
    a_line();
    write_line();
}
static void a_frame_two(void)
{
    a_line();
    write_two();
}
static void a_frame_of_b(void)
{
    a_line_of_b();
    write_line();
}

static const struct {
    const char *name;
    void (*before)(void);
    void (*call)(void);
    size_t most;
} calls_measured[] = {
    {"permute", nothing, permute, LUBDHVANI_STACK_BUT_READ},
    {"unpermute", nothing, unpermute, LUBDHVANI_STACK_BUT_READ},
    {"digest, instance 1", nothing, digest_one, LUBDHVANI_STACK_BUT_READ},
    {"digest, instance 10", nothing, digest_last, LUBDHVANI_STACK_BUT_READ},
    {"start", nothing, start_one, LUBDHVANI_STACK_BUT_READ},
    {"feed, instance 1", start_one, feed_text, LUBDHVANI_STACK_BUT_READ},
    {"feed, instance 10", start_last, feed_text, LUBDHVANI_STACK_BUT_READ},
    {"finish, instance 1", start_one, finish, LUBDHVANI_STACK_BUT_READ},
    {"finish, instance 10", start_last, finish, LUBDHVANI_STACK_BUT_READ},
    {"seal", nothing, seal_text, LUBDHVANI_STACK_BUT_READ},
    {"open", nothing, open_text, LUBDHVANI_STACK_BUT_READ},
    {"write", a_line, write_line, LUBDHVANI_STACK_BUT_READ},
    {"write_two", a_line, write_two, LUBDHVANI_STACK_BUT_READ},
    {"write, layout B", a_line_of_b, write_line, LUBDHVANI_STACK_BUT_READ},
    {"next_stretch", plain, next_stretch, LUBDHVANI_STACK_BUT_READ},
    {"bundle_write", glyphs, bundle_write, LUBDHVANI_STACK_BUT_READ},
    {"bundle_read", a_bundle, bundle_read, LUBDHVANI_STACK_BUT_READ},
    {"bundle_digest", a_bundle, bundle_digest, LUBDHVANI_STACK_BUT_READ},
    {"bundle_rows", a_bundle, bundle_rows, LUBDHVANI_STACK_BUT_READ},
    {"read, a line", a_frame, read_frame, LUBDHVANI_STACK},
    {"read, a line of edition two", a_frame_two, read_frame, LUBDHVANI_STACK},
    {"read, a line of layout B", a_frame_of_b, read_frame, LUBDHVANI_STACK},
    {"next, a line of edition two", a_frame_two, next_frame, LUBDHVANI_STACK},
    {"read, longest stretch, plain", plain, read_stretch, LUBDHVANI_STACK},
    {"read, longest stretch, escapes", escapes, read_stretch, LUBDHVANI_STACK},
    {"read, longest stretch, dangling escape", dangling, read_stretch, LUBDHVANI_STACK},
    {"read, longest stretch, bad escape", bad_escape, read_stretch, LUBDHVANI_STACK},
    {"next, longest stretch, plain", plain, next_read_stretch, LUBDHVANI_STACK},
    {"accept, a line of edition two", a_frame_two, accept_frame, LUBDHVANI_STACK},
    {"accept, a line of layout B", a_frame_of_b, accept_frame, LUBDHVANI_STACK},
    {"accept, longest stretch, plain", plain, accept_stretch, LUBDHVANI_STACK},
    {"accept, longest stretch, escapes", escapes, accept_stretch, LUBDHVANI_STACK},
    {"accept, longest stretch, dangling escape", dangling, accept_stretch, LUBDHVANI_STACK},
    {"accept, longest stretch, bad escape", bad_escape, accept_stretch, LUBDHVANI_STACK},
    {"nonce, a line of edition two", a_frame_two, nonce_frame, LUBDHVANI_STACK},
    {"nonce, longest stretch, plain", plain, nonce_stretch, LUBDHVANI_STACK},
    {"nonce, longest stretch, escapes", escapes, nonce_stretch, LUBDHVANI_STACK},
    {"nonce, longest stretch, dangling escape", dangling, nonce_stretch, LUBDHVANI_STACK},
    {"index_entry", nothing, index_entry, LUBDHVANI_STACK_BUT_READ},
    {"index_line", nothing, index_line, LUBDHVANI_STACK_BUT_READ},
    {"index_update, a line", a_frame, index_frame, LUBDHVANI_STACK},
    {"index_update, longest stretch, plain", plain, index_stretch, LUBDHVANI_STACK},
    {"index_update, longest stretch, escapes", escapes, index_stretch, LUBDHVANI_STACK},
    {"index_update, longest stretch, dangling escape", dangling, index_stretch, LUBDHVANI_STACK},
    {"index_update, longest stretch, bad escape", bad_escape, index_stretch, LUBDHVANI_STACK},
    {"replay, a line", a_frame, replay_frame, LUBDHVANI_STACK},
    {"replay, a line of edition two", a_frame_two, replay_frame, LUBDHVANI_STACK},
    {"replay, longest stretch, plain", plain, replay_stretch, LUBDHVANI_STACK},
    {"replay, longest stretch, escapes", escapes, replay_stretch, LUBDHVANI_STACK},
    {"replay, longest stretch, dangling escape", dangling, replay_stretch, LUBDHVANI_STACK},
    {"replay, longest stretch, bad escape", bad_escape, replay_stretch, LUBDHVANI_STACK},
    {"stood, a line of edition two", a_frame_two, stood_frame, LUBDHVANI_STACK},
    {"stood, longest stretch, plain", plain, stood_stretch, LUBDHVANI_STACK},
    {"stood, longest stretch, bad escape", bad_escape, stood_stretch, LUBDHVANI_STACK},
    {"desk_copy, a line", a_frame, desk_frame, LUBDHVANI_DESK_STACK},
    {"desk_copy, a line of edition two", a_frame_two, desk_frame, LUBDHVANI_DESK_STACK},
    {"desk_copy, longest stretch, plain", plain, desk_stretch, LUBDHVANI_DESK_STACK},
    {"desk_copy, longest stretch, escapes", escapes, desk_stretch, LUBDHVANI_DESK_STACK},
    {"desk_copy, longest stretch, dangling escape", dangling, desk_stretch, LUBDHVANI_DESK_STACK},
    {"to_one, a line", a_frame_two, to_one_line, LUBDHVANI_STACK},
    {"to_two, a line", a_frame, to_two_line, LUBDHVANI_STACK},
    {"to_two, a line of layout B", a_frame_of_b, to_two_line, LUBDHVANI_STACK},
    {"to_one, longest stretch, plain", plain, to_one_stretch, LUBDHVANI_STACK},
    {"to_two, longest stretch, plain", plain, to_two_stretch, LUBDHVANI_STACK},
    {"to_two, longest stretch, escapes", escapes, to_two_stretch, LUBDHVANI_STACK},
    {"to_two, longest stretch, dangling escape", dangling, to_two_stretch, LUBDHVANI_STACK},
    {"to_two, longest stretch, bad escape", bad_escape, to_two_stretch, LUBDHVANI_STACK},
};
enum { MEASURED = sizeof calls_measured / sizeof calls_measured[0] };

/* The bytes from the first that is no longer paint to the stack's end: a stack grows downwards. */
static size_t used(void)
{
    size_t i = 0;
    while (i < sizeof stack && stack[i] == PAINT)
        i++;
    return sizeof stack - i;
}

static size_t measured(void (*call)(void))
{
    fill(stack, sizeof stack, PAINT);
    getcontext(&there);
    there.uc_stack.ss_sp = (void *)stack;
    there.uc_stack.ss_size = sizeof stack;
    there.uc_link = &here;
    makecontext(&there, call, 0);
    swapcontext(&here, &there);
    return used();
}

/* One call in a process of its own; whether it keeps within what the header says. */
static int keeps_within(size_t k)
{
    int status = 1;
    pid_t child = fork();
    if (child == 0) {
        calls_measured[k].before();
        size_t bytes = measured(calls_measured[k].call);
        printf("stack: %-40s %6zu of %6zu\n", calls_measured[k].name, bytes, calls_measured[k].most);
        fflush(stdout);
        _exit(bytes > calls_measured[k].most);
    }
    return child > 0 && waitpid(child, &status, 0) == child && WIFEXITED(status) && WEXITSTATUS(status) == 0;
}

int main(void)
{
    int wrong = 0;
    for (size_t k = 0; k < MEASURED; k++)
        if (!keeps_within(k))
            wrong = 1;
    puts(wrong ? "stack: a call takes more than the header says" : "stack: every call keeps within what the header says");
    return wrong;
}
