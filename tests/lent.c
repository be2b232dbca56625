// Makes the lent calls that it is told to on its standard input, and writes what they give, for tests/lent,
// tests/sessions, tests/windows and tests/plans.
//
// A call comes as a service (one byte: 0 List, 1 Split, 2 Check, 3 List with coefficients, 4 a session, 5 a window, 6 a
// plan), n, of a session both, of a window its width and cell behind n, of a plan its budget, the length of each slice
// behind a byte that says how it is lent (below), and the numbers of the slices that are read; n, width, cell, budget
// and the lengths have eight bytes. Slices come as the parameters stand, but a session's steps before its areas, the
// counts area as the last, and every number as this machine holds it. A call is made twice, with each slice bordering
// on pages that may not be touched, first at their ends and then at their starts; areas to be written are full of other
// bytes before. Written are the result (eight bytes), a byte with the faults below, and these areas. A call that takes
// more than a minute ends the program.
#include <string.h>

#include "pages.h"
#include "sukoreta.h"

enum { LIST, SPLIT, CHECK, LIST_WITH_COEFFICIENTS, SESSION, WINDOW, PLAN, SERVICES };
enum { ALONE = 3, SLICES = 10, ROOM = 1 << 20, BORDER = 64 };
enum { DIFFERENT = 1, BESIDE = 2, CHANGED = 4 };
// A slice stands between its pages, is a null pointer of length 0, or, for lengths past every room, is zeros that are
// not sent and can only be read.
enum { PLACED, ABSENT, FAR };

static const size_t FAR_ROOM = (size_t)1 << 36;

// The numbers of a service that come alone, n first, and its slices: those that are read come first, and each has
// numbers of so many bytes.
static const struct {
    size_t alone;
    int read, all;
    size_t width[SLICES];
} SHAPES[SERVICES] = {
    [LIST] = {1, 3, 6, {4, 1, 8, 4, 1, 8}},
    [SPLIT] = {1, 4, 8, {4, 1, 8, 4, 4, 1, 4, 8}},
    [CHECK] = {1, 5, 7, {4, 1, 8, 4, 8, 1, 8}},
    [LIST_WITH_COEFFICIENTS] = {1, 3, 7, {4, 1, 8, 4, 1, 8, 8}},
    [SESSION] = {2, 7, 10, {4, 1, 8, 4, 1, 8, 1, 4, 1, 8}},
    [WINDOW] = {3, 5, 9, {4, 1, 8, 4, 4, 4, 1, 4, 8}},
    [PLAN] = {2, 6, 10, {4, 1, 8, 4, 4, 4, 4, 1, 4, 8}},
};

struct slice {
    uint8_t how;
    size_t length, bytes;
};

static uint8_t service;
static size_t alone[ALONE];
static struct slice slices[SLICES];
static struct pages pages[SLICES];
static uint8_t *far_zeros;
static uint8_t sent[SLICES][ROOM], first_areas[SLICES][ROOM], areas[SLICES][ROOM];

#define SLICE(type, i) (type *)at[i], slices[i].length

// The call, with slices that start at these places.
static int64_t called(void *const *at) {
    if (service == LIST)
        return sukoreta_lent_list(alone[0], SLICE(int32_t, 0), SLICE(uint8_t, 1), SLICE(int64_t, 2), SLICE(int32_t, 3),
                                  SLICE(uint8_t, 4), SLICE(uint64_t, 5));
    if (service == SPLIT)
        return sukoreta_lent_split(alone[0], SLICE(int32_t, 0), SLICE(uint8_t, 1), SLICE(int64_t, 2), SLICE(int32_t, 3),
                                   SLICE(int32_t, 4), SLICE(uint8_t, 5), SLICE(int32_t, 6), SLICE(uint64_t, 7));
    if (service == LIST_WITH_COEFFICIENTS)
        return sukoreta_lent_list_with_coefficients(alone[0], SLICE(int32_t, 0), SLICE(uint8_t, 1), SLICE(int64_t, 2),
                                                    SLICE(int32_t, 3), SLICE(uint8_t, 4), SLICE(int64_t, 5),
                                                    SLICE(uint64_t, 6));
    if (service == SESSION)
        return sukoreta_lent_session(alone[0], SLICE(int32_t, 0), SLICE(uint8_t, 1), SLICE(int64_t, 2),
                                     alone[1], SLICE(int32_t, 3), SLICE(uint8_t, 4), SLICE(int64_t, 5),
                                     SLICE(int32_t, 7), SLICE(uint8_t, 8), SLICE(uint8_t, 6), SLICE(uint64_t, 9));
    if (service == WINDOW)
        return sukoreta_lent_window(alone[0], SLICE(int32_t, 0), SLICE(uint8_t, 1), SLICE(int64_t, 2),
                                    SLICE(int32_t, 3), alone[1], alone[2], SLICE(int32_t, 4), SLICE(int32_t, 5),
                                    SLICE(uint8_t, 6), SLICE(int32_t, 7), SLICE(uint64_t, 8));
    if (service == PLAN)
        return sukoreta_lent_plan(alone[0], SLICE(int32_t, 0), SLICE(uint8_t, 1), SLICE(int64_t, 2), SLICE(int32_t, 3),
                                  SLICE(int32_t, 4), SLICE(int32_t, 5), alone[1], SLICE(int32_t, 6), SLICE(uint8_t, 7),
                                  SLICE(int32_t, 8), SLICE(uint64_t, 9));
    return sukoreta_lent_check(alone[0], SLICE(int32_t, 0), SLICE(uint8_t, 1), SLICE(int64_t, 2), SLICE(int32_t, 3),
                               SLICE(int64_t, 4), SLICE(uint8_t, 5), SLICE(uint64_t, 6));
}

// Where slice i stands at one end of its pages, and the bytes on its other side.
static uint8_t *start(int i, bool at_end) {
    return block(pages[i], slices[i].bytes, at_end);
}

static uint8_t *beside(int i, bool at_end) {
    return at_end ? start(i, at_end) - BORDER : start(i, at_end) + slices[i].bytes;
}

// One call at one end of the pages; `after` gets what is in the written areas afterwards.
static int64_t placed(bool at_end, uint8_t (*after)[ROOM], int *faults) {
    int read = SHAPES[service].read, all = SHAPES[service].all;
    void *at[SLICES];
    uint8_t border[BORDER];
    memset(border, at_end ? 0xa5 : 0x5a, BORDER);
    for (int i = 0; i < all; i++) {
        at[i] = slices[i].how == PLACED ? start(i, at_end) : slices[i].how == FAR ? far_zeros : NULL;
        if (slices[i].how != PLACED) continue;
        memset(start(i, at_end), border[0], slices[i].bytes);
        memcpy(beside(i, at_end), border, BORDER);
        if (i < read) memcpy(start(i, at_end), sent[i], slices[i].bytes);
    }
    int64_t result = called(at);
    for (int i = 0; i < all; i++) {
        if (slices[i].how != PLACED) continue;
        if (memcmp(beside(i, at_end), border, BORDER)) *faults |= BESIDE;
        if (i < read && memcmp(start(i, at_end), sent[i], slices[i].bytes)) *faults |= CHANGED;
        if (i >= read) memcpy(after[i], start(i, at_end), slices[i].bytes);
    }
    return result;
}

static bool get(void *to, size_t bytes) {
    return fread(to, 1, bytes, stdin) == bytes;
}

// Reads a call; whether it is whole and there is room for it.
static bool told(void) {
    if (service >= SERVICES || !get(alone, SHAPES[service].alone * sizeof *alone)) return false;
    int read = SHAPES[service].read, all = SHAPES[service].all;
    for (int i = 0; i < all; i++) {
        struct slice *s = &slices[i];
        if (!get(&s->how, 1) || !get(&s->length, sizeof s->length) || s->length > FAR_ROOM / 8) return false;
        s->bytes = s->length * SHAPES[service].width[i];
        bool good[] = {[PLACED] = s->bytes <= ROOM, [ABSENT] = !s->length, [FAR] = i < read};
        if (s->how > FAR || !good[s->how]) return false;
    }
    for (int i = 0; i < read; i++)
        if (slices[i].how == PLACED && !get(sent[i], slices[i].bytes)) return false;
    return true;
}

static bool put(const void *from, size_t bytes) {
    return fwrite(from, 1, bytes, stdout) == bytes;
}

int main(void) {
    _Static_assert(sizeof(size_t) == 8, "lengths have eight bytes");
    for (int i = 0; i < SLICES; i++) pages[i] = between_guards(ROOM + BORDER);
    far_zeros = mmap(NULL, FAR_ROOM, PROT_READ, MAP_PRIVATE | MAP_ANONYMOUS | MAP_NORESERVE, -1, 0);
    if (far_zeros == MAP_FAILED) return 1;
    while (get(&service, 1)) {
        if (!told()) return 1;
        int faults = 0, read = SHAPES[service].read, all = SHAPES[service].all;
        alarm(60);
        int64_t first = placed(true, first_areas, &faults), result = placed(false, areas, &faults);
        if (first != result) faults |= DIFFERENT;
        for (int i = read; i < all; i++)
            if (memcmp(first_areas[i], areas[i], slices[i].bytes)) faults |= DIFFERENT;
        if (!put(&result, sizeof result) || !put(&(uint8_t){(uint8_t)faults}, 1)) return 1;
        for (int i = read; i < all; i++)
            if (!put(areas[i], slices[i].bytes)) return 1;
        if (fflush(stdout)) return 1;
    }
    return 0;
}
