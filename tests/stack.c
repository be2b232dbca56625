// Measures the stack that each call takes, on orders that go through every part of it, and holds it to a bound. Each
// call is made with all moves of a table, and then bare, with a basis of them, which List with coefficients alone
// refuses; what is printed is the most of both. A session has the same order twice, and must finish both. The records
// of a window draw images of all rows at all positions, more often than the window is wide. A plan has the greatest
// budget, and must take a thousand steps or more.
//
// A call is made in a thread whose stack was filled before: what is changed afterwards was taken. What the thread takes
// itself, found by a call that does nothing, is not counted. The last line is 'N passed, M failed'.
#include <pthread.h>
#include <stdbool.h>
#include <stdio.h>
#include <stdlib.h>
#include <string.h>

#include "sukoreta.h"

enum { STACK = 1 << 20, BOUND = 400000, FILLED = 0xa5, N = 16, MOVES = 36, BASIS = 9, SENT = 7, STEPS = 1 << 17 };
enum { WIDTH = 256, RECORDS = 2 * 1152 };
enum { BUDGET = 100000, EACH = 400, FEWEST = 1000 };

static uint8_t stack[STACK] __attribute__((aligned(4096)));
static int32_t generators[MOVES * N], list[128 * N], pieces[256], vector[N], rows[128 * N];
static uint8_t exchanges[SENT * N], group[1152 * N], order[SUKORETA_ORDER_LIMIT], answer[SUKORETA_ANSWER_LIMIT];
static uint8_t steps[STEPS];
static int32_t start[N], records[3 * RECORDS], answers[RECORDS * (N + 3)];
static int32_t plan_start[N], upper[N], costs[N], plan[N];
static uint64_t counts[10];
static int64_t images[SENT * BASIS * BASIS], coefficients[128 * MOVES], written[128 * MOVES], result;
static size_t moves, image_count, order_length, row_count;

// ---- the moves of the 4 by 4 table, its swaps of neighbouring rows and columns and its transposition

static size_t put_number(size_t at, int64_t x, int bytes) {
    for (int i = 0; i < bytes; i++) order[at++] = (uint8_t)((uint64_t)x >> 8 * i);
    return at;
}

// All moves, or those of row 0 and column 0 alone, which are a basis.
static void make_generators(bool bare) {
    int32_t *g = generators;
    memset(generators, 0, sizeof generators);
    for (int a = 0; a < (bare ? 1 : 4); a++)
        for (int c = a + 1; c < 4; c++)
            for (int b = 0; b < (bare ? 1 : 4); b++)
                for (int d = b + 1; d < 4; d++, g += N) {
                    g[4 * a + b] = g[4 * c + d] = 1;
                    g[4 * a + d] = g[4 * c + b] = -1;
                }
    moves = bare ? BASIS : MOVES;
}

static int swapped(int x, int at) { return x == at ? at + 1 : x == at + 1 ? at : x; }

static void make_exchanges(void) {
    for (int e = 0; e < SENT; e++)
        for (int i = 0; i < 4; i++)
            for (int j = 0; j < 4; j++) {
                int a = e < 3 ? swapped(i, e) : e == 6 ? j : i, b = e < 3 ? j : e == 6 ? i : swapped(j, e - 3);
                exchanges[N * e + 4 * i + j] = (uint8_t)(1 + 4 * a + b);
            }
}

// A table with zero sums is its cells outside row 0 and column 0 times the moves of row 0 with their row and column 0
// with their column: the cell that is the coefficient of basis move k.
static int cell_of(int k) { return 4 * (k / 3 + 1) + k % 3 + 1; }

// The coefficients of the brought rows. Among all moves those of the basis are 6 to a row of the table.
static void make_coefficients(bool bare) {
    memset(coefficients, 0, sizeof coefficients);
    for (size_t r = 0; r < row_count; r++)
        for (int k = 0; k < BASIS; k++)
            coefficients[moves * r + (bare ? k : 6 * (k / 3) + k % 3)] = rows[N * r + cell_of(k)];
}

// The coefficients of what each exchange makes of each basis move; none if the order is not bare.
static void make_images(bool bare) {
    image_count = bare ? SENT * BASIS * BASIS : 0;
    for (size_t i = 0; i < image_count; i++) {
        size_t e = i / (BASIS * BASIS), q = i / BASIS % BASIS;
        images[i] = generators[N * q + exchanges[N * e + cell_of(i % BASIS)] - 1];
    }
}

// The order file of a service (0 List, 1 Split, 2 Check).
static void make_order(int service) {
    size_t at = put_number(0, 0x01, 1);
    at = put_number(at, N, 1);
    for (size_t g = 0; g < moves; g++) {
        at = put_number(at, 0x02, 1);
        for (int j = 0; j < N; j++) at = put_number(at, generators[N * g + j], 2);
    }
    for (int e = 0; e < SENT; e++) {
        at = put_number(at, 0x03, 1);
        for (int j = 0; j < N; j++) at = put_number(at, exchanges[N * e + j], 1);
    }
    for (size_t i = 0; i < image_count; i++) {
        if (i % moves == 0) at = put_number(at, 0x07, 1);
        at = put_number(at, images[i], 4);
    }
    if (service == 1) {
        at = put_number(at, 0x06, 1);
        for (int j = 0; j < N; j++) at = put_number(at, vector[j], 4);
    }
    for (size_t r = 0; service == 2 && r < row_count; r++) {
        at = put_number(at, 0x04, 1);
        for (int j = 0; j < N; j++) at = put_number(at, rows[N * r + j], 2);
        at = put_number(at, 0x05, 1);
        for (size_t g = 0; g < moves; g++) at = put_number(at, coefficients[moves * r + g], 4);
    }
    order_length = put_number(at, 0x00, 1);
}

// ---- the calls

static void *nothing(void *x) { return x; }

static void *lent_list(void *x) {
    result = sukoreta_lent_list(N, generators, moves * N, exchanges, SENT * N, images, image_count, list, 128 * N,
                                group, 1152 * N, counts, 5);
    return x;
}

static void *lent_list_with_coefficients(void *x) {
    result = sukoreta_lent_list_with_coefficients(N, generators, moves * N, exchanges, SENT * N, images, image_count,
                                                  list, 128 * N, group, 1152 * N, written, 128 * moves, counts, 5);
    return x;
}

static void *lent_split(void *x) {
    result = sukoreta_lent_split(N, generators, moves * N, exchanges, SENT * N, images, image_count, vector, N, list,
                                 128 * N, group, 1152 * N, pieces, 256, counts, 5);
    return x;
}

static void *lent_check(void *x) {
    result = sukoreta_lent_check(N, generators, moves * N, exchanges, SENT * N, images, image_count, rows,
                                 row_count * N, coefficients, row_count * moves, group, 1152 * N, counts, 5);
    return x;
}

static void *lent_session(void *x) {
    result = sukoreta_lent_session(N, generators, moves * N, exchanges, SENT * N, images, image_count,
                                   N, generators, moves * N, exchanges, SENT * N, images, image_count,
                                   list, 128 * N, group, 1152 * N, steps, STEPS, counts, 10);
    if (result != 2) result = -1;  // an order that is not finished counts as a refusal
    return x;
}

static void *lent_window(void *x) {
    result = sukoreta_lent_window(N, generators, moves * N, exchanges, SENT * N, images, image_count, start, N, WIDTH,
                                  N, records, 3 * RECORDS, list, 128 * N, group, 1152 * N, answers,
                                  RECORDS * (N + 3), counts, 5);
    return x;
}

static void *lent_plan(void *x) {
    result = sukoreta_lent_plan(N, generators, moves * N, exchanges, SENT * N, images, image_count, plan_start, N,
                                upper, N, costs, N, BUDGET, list, 128 * N, group, 1152 * N, plan, N, counts, 7);
    if (result >= 0 && result < FEWEST) result = -1;  // too few steps count as a refusal
    return x;
}

static void *call_list(void *x) {
    result = sukoreta_list(order, order_length, answer, sizeof answer);
    return x;
}

static void *call_split(void *x) {
    result = sukoreta_split(order, order_length, answer, sizeof answer);
    return x;
}

static void *call_check(void *x) {
    result = sukoreta_check(order, order_length, answer, sizeof answer);
    return x;
}

// The bytes of the stack that a call changes.
static size_t taken(void *(*call)(void *)) {
    pthread_attr_t attributes;
    pthread_t thread;
    memset(stack, FILLED, STACK);
    if (pthread_attr_init(&attributes) || pthread_attr_setstack(&attributes, stack, STACK) ||
        pthread_create(&thread, &attributes, call, NULL) || pthread_join(thread, NULL))
        exit(1);
    size_t free = 0;
    while (free < STACK && stack[free] == FILLED) free++;
    return STACK - free;
}

// A table and a run on it: each image is added, and taken back at once.
static void make_run(void) {
    for (int j = 0; j < N; j++) start[j] = 4;
    for (int i = 0; i < RECORDS; i++) {
        records[3 * i] = (int32_t)((size_t)i / 2 % row_count);
        records[3 * i + 1] = i / 2;
        records[3 * i + 2] = i % 2 ? -1 : 1;
    }
}

// A plan that is far from a cheapest one.
static void make_plan(void) {
    for (int j = 0; j < N; j++) {
        plan_start[j] = EACH;
        upper[j] = 3 * EACH;
        costs[j] = 7 * j * j % 23 - 11;
    }
}

// An order that every call accepts: the vector is a sum of moves, and the brought list is the one that List finds.
static void make(bool bare) {
    make_generators(bare);
    make_images(bare);
    for (int j = 0; j < N; j++) vector[j] = 3 * generators[j] + 2 * generators[7 * N + j];
    lent_list(NULL);
    row_count = result < 0 ? 0 : (size_t)result;
    memcpy(rows, list, sizeof rows);
    make_coefficients(bare);
    if (row_count) make_run();
}

enum { CALLED = 10 };

int main(void) {
    static const struct {
        const char *name;
        void *(*call)(void *);
        int service;
        bool takes_bare;
    } CALLS[CALLED] = {{"sukoreta_lent_list", lent_list, 0, true},
                       {"sukoreta_lent_list_with_coefficients", lent_list_with_coefficients, 0, false},
                       {"sukoreta_lent_split", lent_split, 1, true},
                       {"sukoreta_lent_check", lent_check, 2, true},
                       {"sukoreta_lent_session", lent_session, 0, true},
                       {"sukoreta_lent_window", lent_window, 0, true},
                       {"sukoreta_lent_plan", lent_plan, 0, true},
                       {"sukoreta_list", call_list, 0, true},
                       {"sukoreta_split", call_split, 1, true},
                       {"sukoreta_check", call_check, 2, true}};
    size_t most[CALLED] = {0}, own = taken(nothing);
    int64_t results[CALLED][2];
    int failed = 0;
    make_exchanges();
    make_plan();
    for (int i = 0; i < STEPS; i++) steps[i] = i % 2;
    for (int bare = 0; bare < 2; bare++) {
        make(bare);
        for (int i = 0; i < CALLED; i++) {
            make_order(CALLS[i].service);
            size_t bytes = taken(CALLS[i].call) - own;
            if (bytes > most[i]) most[i] = bytes;
            results[i][bare] = result;
        }
    }
    for (int i = 0; i < CALLED; i++) {
        printf("%s: %zu bytes of stack, results %lld and %lld\n", CALLS[i].name, most[i], (long long)results[i][0],
               (long long)results[i][1]);
        failed += most[i] > BOUND || results[i][0] < 0 || (results[i][1] >= 0) != CALLS[i].takes_bare;
    }
    printf("%d passed, %d failed\n", CALLED - failed, failed);
    return failed > 0;
}
