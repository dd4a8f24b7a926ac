/* The desk alone, with no library beside it: an empty list, and what is refused before a stretch is read. */
#include "lubdhvani_desk.h"

#include <stdio.h>

int main(void)
{
    static const uint8_t key[16], font[32], stream[65537];
    static const uint32_t table[512], list[] = {0};
    const struct lubdhvani_desk_reworked done = lubdhvani_desk_copy(stream, 4, key, 16, font, 32, 1, 0, table, 512, 0, NULL, 0, NULL, 0),
                                         past = lubdhvani_desk_copy(stream, 4, key, 16, font, 32, 1, 0, table, 512, 0, list, 1, NULL, 0),
                                         none = lubdhvani_desk_copy(stream, 4, key, 16, font, 32, 1, 0, table, 512, 1, list, 1, NULL, 0),
                                         size = lubdhvani_desk_copy(stream, 65537, key, 16, font, 31, 1, 0, table, 512, 0, list, 1, NULL, 0),
                                         over = lubdhvani_desk_copy(stream, 65537, key, 16, font, 32, 1, 0, table, 511, 0, list, 1, NULL, 0);
    const int holds = done.number == LUBDHVANI_DESK_DONE && done.length == 0 && past.number == LUBDHVANI_DESK_PAST && past.item == 1
        && none.number == LUBDHVANI_DESK_NO_LINE && none.item == 1 && size.number == LUBDHVANI_DESK_SIZES && over.number == LUBDHVANI_DESK_TOO_LONG;
    printf("client-desk: alone, %s\n", holds ? "as it should be" : "WRONG");
    return !holds;
}
