/* A fuzzer for the rework desk, over include/lubdhvani_desk.h and include/lubdhvani.h (libFuzzer). An input is a recipe for a stream, what is changed in
 * its index, and a list, which repeats. Every answer is held to the rules of the header: by the library's reader, item by item. */
#include "given.h"
#include "lubdhvani.h"
#include "lubdhvani_desk.h"

#include <string.h>

enum { MARK = 0x7E, UNTOUCHED = 0xA5, MOST_ITEMS = 600 };

__attribute__((section("__libfuzzer_extra_counters"))) static uint8_t met[256];

static uint8_t key[LUBDHVANI_KEY], font[LUBDHVANI_DIGEST];
static uint8_t stream[LUBDHVANI_LONGEST_INPUT], out[LUBDHVANI_LONGEST_INPUT + 1];
static size_t stream_length;
static uint32_t table[LUBDHVANI_INDEX], list[MOST_ITEMS];
static size_t count, items;

/* A frame of one to 16 digits, now and then with its opening mark shared or a byte changed; or raw bytes. */
static void piece(uint8_t kind)
{
    uint8_t line[16], nonce[LUBDHVANI_NONCE] = {0}, frame[LUBDHVANI_FRAME];
    const size_t n = 1 + take() % sizeof line;
    if (kind % 8 == 7) {
        for (size_t i = 0; i < n; i++)
            stream[stream_length++] = take();
        return;
    }
    for (size_t i = 0; i < n; i++)
        line[i] = (uint8_t)('0' + (i + n) % 10);
    nonce[0] = take();
    const size_t length = lubdhvani_write(key, sizeof key, nonce, sizeof nonce, font, sizeof font, LUBDHVANI_LAYOUT_NEITHER, line, n, frame, sizeof frame).length;
    const size_t shared = kind % 8 == 6 && stream_length > 0;
    if (kind % 8 == 5)
        frame[take() % length] ^= 1;
    memcpy(stream + stream_length, frame + shared, length - shared);
    stream_length += length - shared;
}

static struct lubdhvani_reading read_at(const uint8_t *bytes, size_t length, size_t from, uint8_t line[LUBDHVANI_LONGEST_LINE])
{
    const struct lubdhvani_asked asked = {.editions = LUBDHVANI_BOTH_EDITIONS, .allowed = LUBDHVANI_ALL_WORK};
    return lubdhvani_read(bytes, length, from, key, sizeof key, font, sizeof font, asked, line, LUBDHVANI_LONGEST_LINE);
}

/* Whether a line starts at the place that an entry names, by the library's reader. */
static int line_there(size_t item, struct lubdhvani_reading *r, uint8_t line[LUBDHVANI_LONGEST_LINE])
{
    const size_t place = table[item] / 256;
    if (place == 0 || place > stream_length)
        return 0;
    *r = read_at(stream, stream_length, place - 1, line);
    return r->outcome == LUBDHVANI_LINE && r->first == place;
}

static void judge(const struct lubdhvani_desk_reworked *done)
{
    size_t at = 0;
    for (size_t k = 0; k < items; k++) {
        uint8_t line[LUBDHVANI_LONGEST_LINE], again[LUBDHVANI_LONGEST_LINE];
        struct lubdhvani_reading r, anew;
        const int past = list[k] >= count;
        if (past || !line_there(list[k], &r, line)) {
            must(done->number == (past ? LUBDHVANI_DESK_PAST : LUBDHVANI_DESK_NO_LINE) && done->item == k + 1, "the first item at fault decides");
            return;
        }
        if (done->number == LUBDHVANI_DESK_DONE) {
            must(out[at] == MARK && memcmp(out + at + 1, stream + r.first, r.closing - r.first) == 0, "the frame is copied");
            anew = read_at(out, done->length, at, again);
            must(anew.outcome == LUBDHVANI_LINE && anew.first == at + 1 && anew.length == r.length && memcmp(line, again, r.length) == 0, "and read as it was");
            must(anew.edition == r.edition && anew.job == r.job && out[anew.closing] == MARK, "with its edition and job, and a mark of its own");
        }
        at += r.closing - r.first + 2;
    }
    must(done->item == 0, "no item is at fault");
    if (at > LUBDHVANI_LONGEST_INPUT)
        must(done->number == LUBDHVANI_DESK_TOO_LONG, "a new stream that is too long");
    else
        must(done->number == LUBDHVANI_DESK_NO_ROOM || (done->number == LUBDHVANI_DESK_DONE && done->length == at), "all of them are copied");
}

int LLVMFuzzerTestOneInput(const uint8_t *data, size_t size)
{
    give(data, size);
    stream_length = 0;
    for (size_t pieces = take() % 24; pieces > 0; pieces--)
        piece(take());
    const struct lubdhvani_indexed up = lubdhvani_index_update(stream, stream_length, key, sizeof key, font, sizeof font, LUBDHVANI_BOTH_EDITIONS,
                                                               LUBDHVANI_LAYOUT_NEITHER, table, LUBDHVANI_INDEX, 0);
    must(up.number == LUBDHVANI_DONE, "the stream is indexed");
    count = up.count;
    for (size_t changes = take() % 4; changes > 0; changes--) {
        const size_t which = take() % 32;
        table[which] = (uint32_t)take() << 16 | (uint32_t)take() << 8 | take();
    }
    items = 0;
    const size_t each = 1 + take() % 40;
    while (input_left > 0 && items + each <= MOST_ITEMS) {
        const uint32_t item = take();
        for (size_t i = 0; i < each; i++)
            list[items++] = item % 32;
    }
    const size_t room = take() % 2 ? 200 : sizeof out;
    memset(out, UNTOUCHED, sizeof out);
    const struct lubdhvani_desk_reworked done = lubdhvani_desk_copy(stream, stream_length, key, sizeof key, font, sizeof font, LUBDHVANI_BOTH_EDITIONS,
                                                                    LUBDHVANI_LAYOUT_NEITHER, table, LUBDHVANI_INDEX, count, list, items, out, room);
    met[done.number]++;
    judge(&done);
    must(done.length <= room, "no more is written than fits");
    for (size_t i = done.length; i < sizeof out; i++)
        must(out[i] == UNTOUCHED, "nothing behind the new stream is written, and nothing on a refusal");
    return 0;
}
