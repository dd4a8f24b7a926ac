/* A spoiled job and its rework, over include/lubdhvani.h and include/lubdhvani_desk.h: orders are composed and damaged on the way, the press indexes what
 * arrives, the desk copies the good frames in another order, the refused orders are set again behind them, and the new stream is accepted and listed.
 * Every answer is compared with the one expected; the status is 1 if one differs. */
#include "lubdhvani.h"
#include "lubdhvani_desk.h"

#include <stdio.h>
#include <string.h>

static int wrong;

static void check(int holds, const char *what)
{
    if (!holds) {
        printf("client-desk: WRONG: %s\n", what);
        wrong = 1;
    }
}

static const uint8_t key[LUBDHVANI_KEY] = "the press's key";
static uint8_t font[LUBDHVANI_DIGEST];

/* The orders; two of them are damaged on the way. */
enum { ORDERS = 5 };
static const char *const orders[ORDERS] = {"12", "A123456780A 55C", "7", "0000012500B", "345"};
static const int spoiled[ORDERS] = {0, 1, 0, 0, 1};

/* A frame of an order, with a nonce of its own. */
static size_t set(const char *line, uint8_t number, uint8_t *out, size_t room)
{
    const uint8_t nonce[LUBDHVANI_NONCE] = {number};
    const struct lubdhvani_framed made = lubdhvani_write(key, sizeof key, nonce, sizeof nonce, font, sizeof font, LUBDHVANI_LAYOUT_NEITHER,
                                                         (const uint8_t *)line, strlen(line), out, room);
    check(made.number == LUBDHVANI_DONE, "an order is set");
    return made.length;
}

static uint8_t stream[LUBDHVANI_LONGEST_INPUT + 1], anew[LUBDHVANI_LONGEST_INPUT + 1];
static size_t stream_length, anew_length;
static uint32_t table[LUBDHVANI_INDEX];
static size_t count;

/* Composed and damaged: a byte of the nonce is changed. Neighbours share a mark. */
static void arrive(void)
{
    for (size_t k = 0; k < ORDERS; k++) {
        const size_t at = stream_length ? stream_length - 1 : 0, length = set(orders[k], (uint8_t)k, stream + at, LUBDHVANI_FRAME);
        stream[at + 5] ^= (uint8_t)spoiled[k];
        stream_length = at + length;
    }
    const struct lubdhvani_indexed up = lubdhvani_index_update(stream, stream_length, key, sizeof key, font, sizeof font, LUBDHVANI_EDITION_ONE,
                                                               LUBDHVANI_LAYOUT_NEITHER, table, LUBDHVANI_INDEX, 0);
    check(up.number == LUBDHVANI_DONE && up.count == ORDERS, "what arrives is indexed");
    count = up.count;
    for (size_t k = 0; k < ORDERS; k++) {
        const struct lubdhvani_entry entry = lubdhvani_index_entry(table, LUBDHVANI_INDEX, count, k);
        check(entry.there && (entry.number == LUBDHVANI_BAD_SEAL) == spoiled[k] && (entry.number == LUBDHVANI_DONE) == !spoiled[k], "the spoiled ones are refused");
    }
}

static struct lubdhvani_desk_reworked copy(const uint32_t *entries, const uint32_t *list, size_t items, uint8_t *out, size_t room)
{
    return lubdhvani_desk_copy(stream, stream_length, key, sizeof key, font, sizeof font, LUBDHVANI_EDITION_ONE, LUBDHVANI_LAYOUT_NEITHER, entries,
                               LUBDHVANI_INDEX, count, list, items, out, room);
}

static int untouched(void)
{
    for (size_t i = 0; i < sizeof anew; i++)
        if (anew[i] != 0xEE)
            return 0;
    return 1;
}

/* What the desk refuses, with the item; the output stays as it was. */
static void refusals(void)
{
    static const uint32_t all[ORDERS] = {0, 1, 2, 3, 4}, past[] = {0, 2, ORDERS, 1}, good[] = {3, 0};
    struct lubdhvani_desk_reworked r = copy(table, all, ORDERS, anew, sizeof anew);
    check(r.number == LUBDHVANI_DESK_NO_LINE && r.length == 0 && r.item == 2, "a spoiled form has no line: the second item");
    r = copy(table, past, 4, anew, sizeof anew);
    check(r.number == LUBDHVANI_DESK_PAST && r.item == 3, "an entry past the index is the third item, and the first at fault");
    r = copy(table, good, 2, anew, 20);
    check(r.number == LUBDHVANI_DESK_NO_ROOM && r.item == 0, "an output that is too short");
    r = lubdhvani_desk_copy(stream, stream_length, key, 15, font, sizeof font, LUBDHVANI_EDITION_ONE, LUBDHVANI_LAYOUT_NEITHER, table, LUBDHVANI_INDEX, 513,
                            all, ORDERS, anew, sizeof anew);
    check(r.number == LUBDHVANI_DESK_SIZES, "a key of 15 bytes");
    r = lubdhvani_desk_copy(stream, stream_length, key, sizeof key, font, sizeof font, LUBDHVANI_EDITION_ONE, LUBDHVANI_LAYOUT_NEITHER, table, 511, 513, all,
                            ORDERS, anew, sizeof anew);
    check(r.number == LUBDHVANI_DESK_NO_ROOM, "a table of 511 entries");
    r = lubdhvani_desk_copy(stream, stream_length, key, sizeof key, font, sizeof font, LUBDHVANI_EDITION_ONE, LUBDHVANI_LAYOUT_NEITHER, table, LUBDHVANI_INDEX, 513,
                            all, ORDERS, anew, sizeof anew);
    check(r.number == LUBDHVANI_DESK_TOO_MANY, "a count of 513");
    static uint32_t many[65536 / 76 + 1];
    for (size_t i = 0; i < sizeof many / sizeof many[0]; i++)
        many[i] = 0;
    r = copy(table, many, sizeof many / sizeof many[0], anew, sizeof anew);
    check(r.number == LUBDHVANI_DESK_TOO_LONG && r.item == 0, "a new stream over 65,536 bytes");
    r = copy(table, NULL, 0, NULL, 0);
    check(r.number == LUBDHVANI_DESK_DONE && r.length == 0, "an empty list gives an empty stream");
    check(untouched(), "nothing was written");
}

/* What can be wrong with a call, in the order of the numbers; where several are, the first decides. */
enum { WRONG = 8, MANY = 900 };
static const size_t number_of[WRONG] = {2, 3, 4, 19, 23, 24, 3, 4};

/* Every set of them at once. Good items come first, so many that the new stream is too long, or two; then one past the index, then a spoiled one. */
static void sets(void)
{
    static uint32_t items[MANY + 2];
    for (unsigned set = 1; set < 1u << WRONG; set++) {
        const int is[WRONG] = {set & 1, set & 2, set & 4, set & 8, set & 16, set & 32, set & 64, set & 128};
        const size_t good = is[6] ? MANY : 2;
        size_t n = good, first = 0;
        memset(items, 0, sizeof items);
        if (is[4])
            items[n++] = 5000;
        if (is[5])
            items[n++] = 1;
        while (!is[first])
            first++;
        const struct lubdhvani_desk_reworked r =
            lubdhvani_desk_copy(stream, is[1] ? sizeof stream : stream_length, key, is[0] ? 15 : 16, font, sizeof font, LUBDHVANI_EDITION_ONE,
                                LUBDHVANI_LAYOUT_NEITHER, table, is[2] ? 511 : 512, is[3] ? 513 : count, items, n, anew, is[7] ? 10 : sizeof anew);
        check(r.number == number_of[first] && r.length == 0, "the first refusal of the order is given");
        check(r.item == (first == 4 || first == 5 ? good + 1 : 0), "and the item for 23 and 24 alone");
    }
    check(untouched(), "nothing was written");
}

/* An index that says otherwise: numbers are not believed, and places are read anew. */
static void other_index(void)
{
    static uint32_t other[LUBDHVANI_INDEX];
    static const uint32_t first[] = {0}, second[] = {1}, third[] = {2};
    other[0] = table[0] + 5;           /* a good line, called refused */
    other[1] = table[1] / 256 * 256;   /* a spoiled one, called a line */
    other[2] = (table[2] / 256 + 1) * 256; /* a byte behind where a stretch starts */
    struct lubdhvani_desk_reworked r = copy(other, first, 1, anew, sizeof anew);
    check(r.number == LUBDHVANI_DESK_DONE && r.length > 0, "the table's number is not looked at");
    memset(anew, 0xEE, sizeof anew);
    check(copy(other, second, 1, anew, sizeof anew).number == LUBDHVANI_DESK_NO_LINE, "nor believed where it says line");
    check(copy(other, third, 1, anew, sizeof anew).number == LUBDHVANI_DESK_NO_LINE, "and no stretch starts inside another");
    check(untouched(), "nothing was written");
}

/* The good ones in another order, and behind them the refused ones, set again. */
static void rework(void)
{
    static const uint32_t good[] = {3, 0, 2}, twice[] = {2, 2};
    struct lubdhvani_desk_reworked r = copy(table, twice, 2, anew, sizeof anew);
    check(r.number == LUBDHVANI_DESK_DONE && memcmp(anew, anew + r.length / 2, r.length / 2) == 0, "an entry asked for twice is copied twice");
    struct lubdhvani_accepted yes = lubdhvani_accept(anew, r.length, key, sizeof key, font, sizeof font, LUBDHVANI_EDITION_ONE, LUBDHVANI_LAYOUT_NEITHER);
    check(yes.number == 22, "and a stream with a nonce twice is not accepted");
    memset(anew, 0xEE, sizeof anew);
    r = copy(table, good, 3, anew, sizeof anew);
    check(r.number == LUBDHVANI_DESK_DONE && r.item == 0 && anew[r.length] == 0xEE, "the good ones are copied, and no byte behind them");
    anew_length = r.length;
    for (size_t k = 0; k < ORDERS; k++)
        if (spoiled[k])
            anew_length += set(orders[k], (uint8_t)(ORDERS + k), anew + anew_length, LUBDHVANI_FRAME);
    yes = lubdhvani_accept(anew, anew_length, key, sizeof key, font, sizeof font, LUBDHVANI_EDITION_ONE, LUBDHVANI_LAYOUT_NEITHER);
    check(yes.number == LUBDHVANI_DONE && yes.first == anew_length, "the new stream is accepted");
}

/* What the press lists of the new stream. */
static void list(void)
{
    static const size_t printed[ORDERS] = {3, 0, 2, 1, 4};
    const struct lubdhvani_asked asked = {.editions = LUBDHVANI_EDITION_ONE, .allowed = LUBDHVANI_ALL_WORK};
    size_t place = 0;
    for (size_t row = 0; row <= ORDERS; row++) {
        uint8_t line[LUBDHVANI_LONGEST_LINE];
        const struct lubdhvani_reading r = lubdhvani_read(anew, anew_length, place, key, sizeof key, font, sizeof font, asked, line, sizeof line);
        if (row == ORDERS) {
            check(r.outcome == LUBDHVANI_END, "and then comes the end");
            return;
        }
        const char *its = orders[printed[row]];
        check(r.outcome == LUBDHVANI_LINE && r.length == strlen(its) && memcmp(line, its, r.length) == 0, "the lines in the asked order");
        printf("%5zu  line     %.*s\n", r.first, (int)r.length, (const char *)line);
        place = r.closing;
    }
}

int main(void)
{
    check(lubdhvani_digest(1, (const uint8_t *)"a font", 6, font, sizeof font).number == LUBDHVANI_DONE, "the font is digested");
    memset(anew, 0xEE, sizeof anew);
    arrive();
    refusals();
    sets();
    other_index();
    rework();
    list();
    if (!wrong)
        printf("client-desk: %d orders, 2 spoiled and set again, 3 copied by the desk: the new stream is accepted and listed\n", ORDERS);
    return wrong;
}
