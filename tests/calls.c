// Tests the C calls: on the sample orders, on damaged ones, on areas of every length, and with null pointers.
//
// Expected are section 10 and the table of 8.3 of docs/SPECIFICATION.md, and for damaged orders what 7.2 and 9 say of
// every answer. The order and the area of each call border on pages that may not be touched, first at their ends and
// then at their starts, since the sanitizers see nothing of the library's own code.
// The last line printed is 'N passed, M failed'.
#include <inttypes.h>
#include <string.h>

#include "pages.h"
#include "sukoreta.h"

// The limits of section 6, which tests/run passes.
#ifndef LIMIT_CELLS
#error "the limits are those of tests/outside.py: build this by tests/run"
#endif

enum { LIST, SPLIT, CHECK, SERVICES };
enum { ROOM = SUKORETA_ANSWER_LIMIT + 16, LONG = SUKORETA_ORDER_LIMIT + 4464, FILLED = 0xa5, BORDER = 64 };

typedef int64_t call(const uint8_t *, size_t, uint8_t *, size_t);

static call *const CALLS[SERVICES] = {sukoreta_list, sukoreta_split, sukoreta_check};
static const char *const WORDS[SERVICES] = {"MOVES", "SPLIT", "PASSED"};

// ---- sample orders (section 10); P5 needs another list area than C calls lend, and P22 images that are not whole

#define I2(x) (uint8_t)(uint32_t)(x), (uint8_t)((uint32_t)(x) >> 8)
#define I4(x) I2(x), I2((uint32_t)(x) >> 16)
#define V2(command, a, b) command, I2(a), I2(b)
#define V3(command, a, b, c) command, I2(a), I2(b), I2(c)
#define V9(a, b, c, d, e, f, g, h, i) 2, I2(a), I2(b), I2(c), I2(d), I2(e), I2(f), I2(g), I2(h), I2(i)
#define IMAGE2(a, b) 7, I4(a), I4(b)
#define IMAGE4(a, b, c, d) 7, I4(a), I4(b), I4(c), I4(d)
#define NINE                                                                                           \
    V9(1, -1, 0, -1, 1, 0, 0, 0, 0), V9(1, 0, -1, -1, 0, 1, 0, 0, 0), V9(0, 1, -1, 0, -1, 1, 0, 0, 0), \
    V9(1, -1, 0, 0, 0, 0, -1, 1, 0), V9(1, 0, -1, 0, 0, 0, -1, 0, 1), V9(0, 1, -1, 0, 0, 0, 0, -1, 1), \
    V9(0, 0, 0, 1, -1, 0, -1, 1, 0), V9(0, 0, 0, 1, 0, -1, -1, 0, 1), V9(0, 0, 0, 0, 1, -1, 0, -1, 1)

static const uint8_t P1[] = {1, 1, 0};
static const uint8_t P2[] = {1, 1, 2, I2(2), 2, I2(3), 0};
static const uint8_t P3[] = {1, 3, V3(2, 1, -1, 0), V3(2, 0, 1, -1), 0};
static const uint8_t P4[] = {0x01, 0x03, 0x02, 0x01, 0x00, 0x00, 0x00, 0xff, 0xff, 0x02, 0x02, 0x00, 0xff, 0xff,
                             0x00, 0x00, 0x02, 0x00, 0x00, 0xff, 0xff, 0x02, 0x00, 0x03, 0x03, 0x02, 0x01, 0x00};
static const uint8_t P6[] = {1, 2, 2, I2(LIMIT_ENTRY), I2(1), 2, I2(1), I2(LIMIT_ENTRY), 0};
static const uint8_t P7[] = {1, 1, 2, I2(2), 2, I2(3), 6, I4(5), 0};
static const uint8_t P8[] = {1, 1, 2, I2(2), 6, I4(1), 0};
static const uint8_t P9[] = {1, 2, 2, I2(1), I2(0), 3, 2, 1, 0};
static const uint8_t P10[] = {1, 1, 2, I2(1), 4, I2(1), 5, I4(1), 4, I2(2), 5, I4(2), 0};
static const uint8_t P11[] = {1, 1, 2, I2(1), 0};
static const uint8_t P12[] = {1, 3, V3(2, 1, -1, 0), V3(2, 0, 1, -1), V3(4, 1, -1, 0), 5, I4(1), I4(0),
                              V3(4, 0, 1, -1), 5, I4(0), I4(1), 0};
static const uint8_t Q13[] = {1, 9, NINE, 3, 4, 5, 6, 1, 2, 3, 7, 8, 9, 3, 1, 2, 3, 7, 8, 9, 4, 5, 6,
                              3, 1, 4, 7, 2, 5, 8, 3, 6, 9, 0};
static const uint8_t Q14[] = {1, 9, NINE, 0};
static const uint8_t P15[] = {1, 2, V2(2, 2, -2), V2(2, 3, 0), 0};
static const uint8_t P16[] = {1, 2, V2(2, 2, -2), V2(2, 3, 0), V2(4, 3, 0), 5, I4(0), I4(1), V2(4, 1, 2), 5, I4(-1),
                              I4(1), V2(4, 2, -2), 5, I4(1), I4(0), V2(4, 1, -4), 5, I4(2), I4(-1), V2(4, 0, 6), 5,
                              I4(-3), I4(2), 0};
#define LINE 1, 3, V3(2, 1, -1, 0), V3(2, 0, 1, -1), 3, 2, 3, 1
#define IMAGES IMAGE2(-1, -1), IMAGE2(1, 0)
static const uint8_t P17[] = {LINE, IMAGES, 0};
static const uint8_t P18[] = {LINE, IMAGES, 6, I4(2), I4(-1), I4(-1), 0};
static const uint8_t P19[] = {LINE, IMAGES, V3(4, 1, 0, -1), 5, I4(1), I4(1), 0};
static const uint8_t P20[] = {LINE, IMAGE2(0, 1), IMAGE2(-1, -1), 0};
static const uint8_t P21[] = {LINE, 3, 3, 1, 2, IMAGES, IMAGE2(0, 1), IMAGE2(-1, 0), 0};
static const uint8_t Q23[] = {
    1, 9, V9(1, -1, 0, -1, 1, 0, 0, 0, 0), V9(0, 1, -1, 0, -1, 1, 0, 0, 0), V9(0, 0, 0, 1, -1, 0, -1, 1, 0),
    V9(0, 0, 0, 0, 1, -1, 0, -1, 1), 3, 4, 5, 6, 1, 2, 3, 7, 8, 9, 3, 1, 2, 3, 7, 8, 9, 4, 5, 6,
    3, 2, 1, 3, 5, 4, 6, 8, 7, 9, 3, 1, 3, 2, 4, 6, 5, 7, 9, 8, 3, 1, 4, 7, 2, 5, 8, 3, 6, 9,
    IMAGE4(-1, 0, 0, 0), IMAGE4(0, -1, 0, 0), IMAGE4(1, 0, 1, 0), IMAGE4(0, 1, 0, 1),
    IMAGE4(1, 0, 1, 0), IMAGE4(0, 1, 0, 1), IMAGE4(0, 0, -1, 0), IMAGE4(0, 0, 0, -1),
    IMAGE4(-1, 0, 0, 0), IMAGE4(1, 1, 0, 0), IMAGE4(0, 0, -1, 0), IMAGE4(0, 0, 1, 1),
    IMAGE4(1, 1, 0, 0), IMAGE4(0, -1, 0, 0), IMAGE4(0, 0, 1, 1), IMAGE4(0, 0, 0, -1),
    IMAGE4(1, 0, 0, 0), IMAGE4(0, 0, 1, 0), IMAGE4(0, 1, 0, 0), IMAGE4(0, 0, 0, 1), 0};
static const uint8_t PASS[] = {1, 1, 2, I2(1), 4, I2(1), 5, I4(1), 0};

// The 15 rows of 14 come from a search through all 3 by 3 tables with zero sums and no entry past 3 (minimal_tables in
// tests/tables.py).
static const char TEXT14[] =
    "MOVES 15 1 15 240\n"
    "1 0 -1 0 0 0 -1 0 1\n1 0 -1 -1 0 1 0 0 0\n1 -1 0 0 0 0 -1 1 0\n1 -1 0 -1 1 0 0 0 0\n0 1 -1 0 0 0 0 -1 1\n"
    "0 1 -1 0 -1 1 0 0 0\n0 0 0 1 0 -1 -1 0 1\n0 0 0 1 -1 0 -1 1 0\n0 0 0 0 1 -1 0 -1 1\n1 0 -1 0 -1 1 -1 1 0\n"
    "1 0 -1 -1 1 0 0 -1 1\n1 -1 0 0 1 -1 -1 0 1\n1 -1 0 -1 0 1 0 1 -1\n0 1 -1 1 -1 0 -1 0 1\n0 1 -1 -1 0 1 1 -1 0\n"
    "END\n";

// An order and its answer: a text, or a number and a place.
struct sample {
    const char *name;
    int service;
    const uint8_t *order;
    size_t length;
    const char *text;
    int number;
    int64_t place;
};

#define ORDER(x) x, sizeof x

static const struct sample SAMPLES[] = {
    {"P1", LIST, ORDER(P1), "MOVES 0 1 0 0\nEND\n", 0, 0},
    {"P2", LIST, ORDER(P2), "MOVES 1 1 3 12\n1\nEND\n", 0, 0},
    {"P3", LIST, ORDER(P3), "MOVES 3 1 3 12\n1 0 -1\n1 -1 0\n0 1 -1\nEND\n", 0, 0},
    {"P4", LIST, ORDER(P4), "MOVES 3 2 3 24\n1 0 -1\n2 -1 0\n1 -1 1\nEND\n", 0, 0},
    {"P6", LIST, ORDER(P6), NULL, 12, 7},
    {"P7", SPLIT, ORDER(P7), "SPLIT 1\n0 0 1 5\nEND\n", 0, 0},
    {"P8", SPLIT, ORDER(P8), NULL, 15, 0},
    {"P9", LIST, ORDER(P9), NULL, 11, 0},
    {"P10", CHECK, ORDER(P10), NULL, 22, 1},
    {"P11", CHECK, ORDER(P11), NULL, 20, 0},
    {"P12", CHECK, ORDER(P12), NULL, 21, 3},
    {"13", LIST, ORDER(Q13), "MOVES 2 72 2 432\n1 0 -1 0 0 0 -1 0 1\n1 0 -1 0 -1 1 -1 1 0\nEND\n", 0, 0},
    {"14", LIST, ORDER(Q14), TEXT14, 0, 0},
    {"P15", LIST, ORDER(P15), "MOVES 5 1 5 30\n2 -2\n3 0\n1 2\n1 -4\n0 6\nEND\n", 0, 0},
    {"P16", CHECK, ORDER(P16), NULL, 18, 2},
    {"P17", LIST, ORDER(P17), "MOVES 1 3 1 6\n1 0 -1\nEND\n", 0, 0},
    {"P18", SPLIT, ORDER(P18), "SPLIT 2\n0 0 1 1\n0 2 -1 1\nEND\n", 0, 0},
    {"P19", CHECK, ORDER(P19), "PASSED 1 6\n", 0, 0},
    {"P20", LIST, ORDER(P20), NULL, 23, 0},
    {"P21", LIST, ORDER(P21), NULL, 23, 3},
    {"23", LIST, ORDER(Q23), "MOVES 2 72 2 432\n1 0 -1 0 0 0 -1 0 1\n1 0 -1 0 -1 1 -1 1 0\nEND\n", 0, 0},
    {"P10 without its second row", CHECK, ORDER(PASS), "PASSED 1 2\n", 0, 0},
};

// The table of 8.3.
#define FILE_OF(...) (const uint8_t[]){__VA_ARGS__}, sizeof((const uint8_t[]){__VA_ARGS__})
#define ONE_IMAGE 1, 1, 2, 1, 0, 3, 1, 3, 1, 7, 1, 0, 0, 0  // the first of two
enum { ANY = SERVICES };

static const struct sample FILES[] = {
    {"empty", ANY, (const uint8_t *)"", 0, NULL, 1, 0},
    {"01", ANY, FILE_OF(1), NULL, 1, 0},
    {"01 03", ANY, FILE_OF(1, 3), NULL, 1, 2},
    {"01 00", ANY, FILE_OF(1, 0), NULL, 5, 0},
    {"a cell too many", ANY, FILE_OF(1, LIMIT_CELLS + 1), NULL, 5, 0},
    {"08", ANY, FILE_OF(8), NULL, 2, 0},
    {"07", ANY, FILE_OF(7), NULL, 3, 0},
    {"06", LIST, FILE_OF(6), NULL, 3, 0},
    {"01 01 01", ANY, FILE_OF(1, 1, 1), NULL, 3, 2},
    {"01 01 02 05", ANY, FILE_OF(1, 1, 2, 5), NULL, 1, 2},
    {"01 01 00", SPLIT, FILE_OF(1, 1, 0), NULL, 3, 2},
    {"a second VECTOR", SPLIT, FILE_OF(1, 1, 6, 1, 0, 0, 0, 6), NULL, 3, 7},
    {"GENERATOR after EXCHANGE", ANY, FILE_OF(1, 1, 3, 1, 2, 1, 0, 0), NULL, 3, 4},
    {"END after ROW", CHECK, FILE_OF(1, 1, 4, 1, 0, 0), NULL, 3, 5},
    {"COEFFICIENTS without ROW", CHECK, FILE_OF(1, 1, 5), NULL, 3, 2},
    {"behind END", LIST, FILE_OF(1, 1, 0, 7), NULL, 4, 3},
    {"IMAGE without GENERATOR", ANY, FILE_OF(1, 1, 3, 1, 7), NULL, 3, 4},
    {"END for IMAGE", ANY, FILE_OF(ONE_IMAGE, 0), NULL, 3, 14},
    {"EXCHANGE for IMAGE", ANY, FILE_OF(ONE_IMAGE, 3, 1), NULL, 3, 14},
    {"IMAGE cut", ANY, FILE_OF(ONE_IMAGE, 7, 1), NULL, 1, 14},
    {"IMAGE too many", ANY, FILE_OF(ONE_IMAGE, 7, 1, 0, 0, 0, 7), NULL, 3, 19},
};

// ---- counting

static long passed, failed, faults;

static void expect(bool holds, const char *name, int service, const char *what) {
    if (holds) return;
    if (++faults <= 5) printf("calls: %s, %s: %s\n", name, WORDS[service], what);
}

// The end of a test, which has passed if nothing that it expected was missed.
static void tested(void) {
    if (faults)
        failed++;
    else
        passed++;
    faults = 0;
}

// ---- calls between pages that may not be touched

static struct pages order_pages, area_pages;
static uint8_t zeros[ROOM], area[ROOM];

// One call with the order and an area of `room` bytes at one end of their pages; the area is then in `area`.
static int64_t placed(const char *name, int service, const uint8_t *order, size_t length, size_t room, bool at_end) {
    uint8_t *lent_order = block(order_pages, length, at_end), *lent_area = block(area_pages, room, at_end);
    uint8_t *beside = at_end ? lent_area - BORDER : lent_area + room;
    uint8_t border[BORDER];
    memset(border, FILLED, BORDER);
    memset(lent_area, FILLED, room);
    memset(beside, FILLED, BORDER);
    if (length) memcpy(lent_order, order, length);
    int64_t result = CALLS[service](lent_order, length, lent_area, room);
    expect(!memcmp(beside, border, BORDER), name, service, "something is written beside the area");
    expect(!length || !memcmp(lent_order, order, length), name, service, "the order is changed");
    memcpy(area, lent_area, room);
    return result;
}

// The same call at both ends, which must give the same.
static int64_t called(const char *name, int service, const uint8_t *order, size_t length, size_t room) {
    static uint8_t first_area[ROOM];
    int64_t first = placed(name, service, order, length, room, true);
    memcpy(first_area, area, room);
    int64_t second = placed(name, service, order, length, room, false);
    expect(first == second && !memcmp(first_area, area, room), name, service, "two calls differ");
    return second;
}

// ---- answers that are known

static void expect_refusal(const struct sample *s, int service, size_t room) {
    int64_t result = called(s->name, service, s->order, s->length, room);
    expect(result == -(32 * s->place + s->number), s->name, service, "another result than the refusal");
    expect(!memcmp(area, zeros, room), s->name, service, "no zeros after a refusal");
}

static void expect_text(const char *name, int service, const uint8_t *order, size_t length, const uint8_t *text,
                        size_t text_length, size_t room) {
    int64_t result = called(name, service, order, length, room);
    if (room < text_length) {
        expect(result == -6, name, service, "a small area is not refused with 6 at 0");
        expect(!memcmp(area, zeros, room), name, service, "no zeros in a small area");
        return;
    }
    expect(result == (int64_t)text_length, name, service, "another length than that of the text");
    expect(!memcmp(area, text, text_length), name, service, "another text");
    expect(!memcmp(area + text_length, zeros, room - text_length), name, service, "no zeros behind the text");
}

static void expect_answer(const struct sample *s, int service, size_t room) {
    if (s->text)
        expect_text(s->name, service, s->order, s->length, (const uint8_t *)s->text, strlen(s->text), room);
    else
        expect_refusal(s, service, room);
}

// Areas of every length up to that of the answer and a little more, and a large one.
static void known(const struct sample *s, int service) {
    size_t length = s->text ? strlen(s->text) : 40;
    for (size_t room = 0; room <= length + 3; room++) expect_answer(s, service, room);
    expect_answer(s, service, ROOM);
}

// The lines of 8.3 with many generators, and files past the order limit: whole generators of one cell up to the end.
static void long_files(void) {
    static uint8_t order[LONG] = {1, 1};
    size_t whole = 2 + LIMIT_GENERATORS * 3;
    for (size_t at = 2; at + 3 <= sizeof order; at += 3) memcpy(order + at, (const uint8_t[]){2, I2(1)}, 3);
    for (int service = 0; service < SERVICES; service++) {
        struct sample s = {"a generator too many", service, order, sizeof order, NULL, 6, (int64_t)whole};
        expect_refusal(&s, service, ROOM);
        for (s.length = whole + 1; s.length <= whole + 3; s.length++) expect_refusal(&s, service, ROOM);
    }
    memcpy(order + whole, (const uint8_t[]){3, 1}, 2);
    memcpy(order + whole + 2, (const uint8_t[]){2, I2(1)}, 3);
    for (int service = 0; service < SERVICES; service++) {
        struct sample s = {"it stands after an exchange", service, order, whole + 5, NULL, 3, (int64_t)whole + 2};
        expect_refusal(&s, service, ROOM);
    }
    memcpy(order + whole, (const uint8_t[]){0, 0}, 2);
    struct sample s = {"far behind END", LIST, order, sizeof order, NULL, 4, (int64_t)whole + 1};
    expect_refusal(&s, LIST, ROOM);
    size_t crowded = 2 + (LIMIT_BARE + 1) * 3;
    memcpy(order + crowded, (const uint8_t[]){3, 1, 7}, 3);
    for (int service = 0; service < SERVICES; service++) {
        s = (struct sample){"a generator too many for IMAGE", service, order, 0, NULL, 6, (int64_t)crowded + 2};
        for (s.length = crowded + 3; s.length <= crowded + 80; s.length += 11) expect_refusal(&s, service, ROOM);
    }
}

// ---- answers that are not known

enum { OFFSET = -1, SUMS = -2 };

// Services that meet a refusal (L, S, C), and its greatest place (7.2): OFFSET is one in the file, SUMS any from 1 on.
static const struct {
    const char *services;
    int most;
} REFUSALS[] = {
    [1] = {"LSC", OFFSET}, [2] = {"LSC", OFFSET}, [3] = {"LSC", OFFSET}, [4] = {"LSC", OFFSET}, [5] = {"LSC", 0},
    [6] = {"LSC", OFFSET},
    [7] = {"LSC", LIMIT_GENERATORS * LIMIT_CELLS - 1},
    [8] = {"LSC", LIMIT_GENERATORS - 1},
    [9] = {"LSC", LIMIT_EXCHANGES - 1},
    [10] = {"LSC", 0},
    [11] = {"LSC", LIMIT_GENERATORS - 1},
    [12] = {"LS", SUMS}, [13] = {"LS", SUMS}, [14] = {"S", LIMIT_CELLS - 1}, [15] = {"S", 0}, [16] = {"S", 0},
    [17] = {"C", LIMIT_LIST - 1}, [18] = {"C", LIMIT_LIST - 1}, [19] = {"C", LIMIT_LIST - 1},
    [20] = {"C", LIMIT_GENERATORS - 1}, [21] = {"C", SUMS}, [22] = {"C", LIMIT_LIST - 1},
    [23] = {"LSC", LIMIT_EXCHANGES * LIMIT_BARE - 1},
};

static bool possible(int service, int64_t result, size_t length) {
    int number = SUKORETA_NUMBER(result);
    int64_t place = SUKORETA_PLACE(result);
    if (number < 1 || number > 23 || !strchr(REFUSALS[number].services, "LSC"[service])) return false;
    if (REFUSALS[number].most == SUMS) return place > 0;
    if (REFUSALS[number].most == OFFSET) return number == 1 ? place <= (int64_t)length : place < (int64_t)length;
    return place <= REFUSALS[number].most;
}

// The end of a line with `count` numbers that starts at `at`, or NULL.
static const uint8_t *numbers(const uint8_t *at, const uint8_t *end, int count) {
    for (int i = 0; i < count; i++) {
        if (at < end && *at == '-') {
            at++;
            if (at < end && *at == '0') return NULL;
        }
        const uint8_t *first = at;
        while (at < end && *at >= '0' && *at <= '9') at++;
        if (at == first || (*first == '0' && at > first + 1)) return NULL;
        if (at == end || *at++ != (i + 1 < count ? ' ' : '\n')) return NULL;
    }
    return at;
}

// The text is one of section 9, with as many lines as its first line says; n is the number of cells.
static bool well_formed(int service, int n, const uint8_t *text, size_t length) {
    static const int FIRST[SERVICES] = {4, 1, 2};
    const uint8_t *end = text + length;
    size_t word = strlen(WORDS[service]);
    if (length < word + 2 || memcmp(text, WORDS[service], word) || text[word] != ' ') return false;
    const uint8_t *at = numbers(text + word + 1, end, FIRST[service]);
    if (!at || service == CHECK) return at == end;
    for (long lines = strtol((const char *)text + word + 1, NULL, 10); lines > 0; lines--) {
        at = numbers(at, end, service == LIST ? n : 4);
        if (!at) return false;
    }
    return end - at == 4 && !memcmp(at, "END\n", 4);
}

static void consistent(const char *name, int service, const uint8_t *order, size_t length) {
    static uint8_t text[ROOM];
    int64_t result = called(name, service, order, length, ROOM);
    if (result < 0) {
        expect(possible(service, result, length), name, service, "a refusal that is none of this service and place");
        expect(!memcmp(area, zeros, ROOM), name, service, "no zeros after a refusal");
        return;
    }
    if (result > SUKORETA_ANSWER_LIMIT) {
        expect(false, name, service, "a longer answer than there can be");
        return;
    }
    size_t text_length = (size_t)result;
    memcpy(text, area, text_length);
    expect(!memcmp(area + text_length, zeros, ROOM - text_length), name, service, "no zeros behind the text");
    if (!well_formed(service, order[1], text, text_length)) {
        expect(false, name, service, "a text that is none");
        return;
    }
    expect_text(name, service, order, length, text, text_length, text_length);
    expect_text(name, service, order, length, text, text_length, text_length - 1);
}

// The offset of the command that a cut at `length` cuts, or `length` if it is cut between commands (8.3).
static size_t cut_command(const uint8_t *order, size_t length) {
    size_t at = 0, m = 0;
    for (;;) {
        if (at == length) return at;
        size_t n = at ? order[1] : 0;
        size_t widths[] = {0, 1, 2 * n, n, 2 * n, 4 * m, 4 * n, 4 * m};
        m += order[at] == 2;
        if (at + 1 + widths[order[at]] > length) return at;
        at += 1 + widths[order[at]];
    }
}

static void cut(const struct sample *s) {
    for (size_t length = 0; length < s->length; length++) {
        struct sample part = {s->name, s->service, s->order, length, NULL, 1, (int64_t)cut_command(s->order, length)};
        for (int service = 0; service < SERVICES; service++) {
            if (service == s->service)
                expect_refusal(&part, service, ROOM);
            else
                consistent(s->name, service, s->order, length);
        }
    }
}

// Each byte changed: to every other value in a short order, in one bit or in all bits in a long one.
static void changed(const struct sample *s) {
    uint8_t order[512];
    memcpy(order, s->order, s->length);
    for (size_t at = 0; at < s->length; at++) {
        for (int bits = 1; bits < 256; bits++) {
            if (s->length > 16 && bits & (bits - 1) && bits != 255) continue;
            order[at] = s->order[at] ^ (uint8_t)bits;
            for (int service = 0; service < SERVICES; service++) consistent(s->name, service, order, s->length);
        }
        order[at] = s->order[at];
    }
}

// Null pointers with the length 0.
static void null_pointers(const struct sample *s) {
    int64_t whole = s->text ? -6 : -(32 * s->place + s->number);
    uint8_t *lent = block(area_pages, 8, true);
    expect(CALLS[s->service](s->order, s->length, NULL, 0) == whole, s->name, s->service, "null area");
    expect(CALLS[s->service](NULL, 0, NULL, 0) == -1, s->name, s->service, "null order and area");
    memset(lent, FILLED, 8);
    expect(CALLS[s->service](NULL, 0, lent, 8) == -1, s->name, s->service, "null order");
    expect(!memcmp(lent, zeros, 8), s->name, s->service, "no zeros after a null order");
}

static void sample(const struct sample *s) {
    known(s, s->service);
    tested();
    for (int service = 0; service < SERVICES; service++) consistent(s->name, service, s->order, s->length);
    tested();
    cut(s);
    tested();
    changed(s);
    tested();
    null_pointers(s);
    tested();
}

int main(void) {
    order_pages = between_guards(LONG);
    area_pages = between_guards(ROOM + BORDER);
    for (size_t i = 0; i < sizeof SAMPLES / sizeof *SAMPLES; i++) sample(&SAMPLES[i]);
    for (size_t i = 0; i < sizeof FILES / sizeof *FILES; i++) {
        for (int service = 0; service < SERVICES; service++) {
            if (FILES[i].service != ANY && FILES[i].service != service) continue;
            known(&FILES[i], service);
            tested();
        }
    }
    long_files();
    tested();
    if (sukoreta_answer_limit() != SUKORETA_ANSWER_LIMIT) {
        printf("calls: sukoreta_answer_limit() is not SUKORETA_ANSWER_LIMIT\n");
        faults++;
    }
    tested();
    printf("%ld passed, %ld failed\n", passed, failed);
    return failed != 0;
}
