// Makes the C calls that it is told to on its standard input, and writes what they give, for tests/compare.
//
// A call comes as a service (one byte: 0 List, 1 Split, 2 Check), the room of the answer area, the length of the order
// (four bytes each, the least first) and the order. It is made twice, with the order and the area bordering on pages
// that may not be touched, first at their ends and then at their starts; the area is full of other bytes before.
// Written are the result (eight bytes, the least first), a byte with the faults below, and the area. A call that takes
// more than a minute ends the program.
#include <string.h>

#include "pages.h"
#include "sukoreta.h"

enum { ORDERS = 1 << 17, ROOM = SUKORETA_ANSWER_LIMIT + 16, BORDER = 64 };
enum { DIFFERENT = 1, BESIDE = 2, CHANGED = 4 };

typedef int64_t call(const uint8_t *, size_t, uint8_t *, size_t);

static call *const CALLS[] = {sukoreta_list, sukoreta_split, sukoreta_check};
static struct pages order_pages, area_pages;

// One call at one end of the pages; `area` gets what is in the lent area afterwards.
static int64_t placed(int service, const uint8_t *order, size_t length, uint8_t *area, size_t room, bool at_end,
                      int *faults) {
    uint8_t *lent_order = block(order_pages, length, at_end), *lent_area = block(area_pages, room, at_end);
    uint8_t *beside = at_end ? lent_area - BORDER : lent_area + room;
    uint8_t border[BORDER];
    memset(border, at_end ? 0xa5 : 0x5a, BORDER);
    memset(lent_area, border[0], room);
    memcpy(beside, border, BORDER);
    memcpy(lent_order, order, length);
    int64_t result = CALLS[service](lent_order, length, lent_area, room);
    if (memcmp(beside, border, BORDER)) *faults |= BESIDE;
    if (memcmp(lent_order, order, length)) *faults |= CHANGED;
    memcpy(area, lent_area, room);
    return result;
}

static uint32_t number(const uint8_t *bytes) {
    return bytes[0] | (uint32_t)bytes[1] << 8 | (uint32_t)bytes[2] << 16 | (uint32_t)bytes[3] << 24;
}

int main(void) {
    static uint8_t order[ORDERS], first_area[ROOM], area[ROOM];
    uint8_t head[9];
    order_pages = between_guards(ORDERS);
    area_pages = between_guards(ROOM + BORDER);
    while (fread(head, 1, sizeof head, stdin) == sizeof head) {
        size_t room = number(head + 1), length = number(head + 5);
        if (head[0] > 2 || room > ROOM || length > ORDERS || fread(order, 1, length, stdin) != length) return 1;
        int faults = 0;
        alarm(60);
        int64_t first = placed(head[0], order, length, first_area, room, true, &faults);
        int64_t result = placed(head[0], order, length, area, room, false, &faults);
        if (first != result || memcmp(first_area, area, room)) faults |= DIFFERENT;
        uint8_t answer[9];
        for (int i = 0; i < 8; i++) answer[i] = (uint8_t)((uint64_t)result >> 8 * i);
        answer[8] = (uint8_t)faults;
        if (fwrite(answer, 1, sizeof answer, stdout) != sizeof answer || fwrite(area, 1, room, stdout) != room ||
            fflush(stdout))
            return 1;
    }
    return 0;
}
