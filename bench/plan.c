// Times the best plan within a budget, on the 4 by 4 table with its group of 1,152, beside a plain C function that
// makes the same steps.
//
//   plan [ROUNDS]
//
// In each round (5 if no number is given, and one before the first that is not counted) each plan is made by the call
// and by the plain function, and by both with the budget 0. With that the call makes its List and searches for a step
// once, and the plain function, which has the list and the group's table, forms the images and searches once. This time
// is taken off the time with the whole budget. Both must give the same plan, the same number of steps, the same word on
// whether the plan is a cheapest one, and the same distance bound; before the first round this is tried with smaller
// budgets too. For each plan a line has the steps a second of both and the milliseconds with the budget 0: the median
// and, in brackets, the best. Costs are drawn with a fixed seed.
#include <inttypes.h>
#include <stdbool.h>
#include <stdio.h>
#include <stdlib.h>
#include <string.h>
#include <time.h>

#include "sukoreta.h"

enum { SIDE = 4, N = SIDE * SIDE, MOVES = 36, SENT = 7, LIST = 128, GROUP = 1152, COUNTS = 7 };
enum { BUDGET = 100000, BOUND = 1000000, MOST_IMAGES = 1024, MOST_ROUNDS = 1000 };

// A plan starts with `high` in each cell and may have twice as much there. Costs are drawn up to `cost`, and none is 0;
// in an even plan they are 1 and -1 like the fields of a chessboard, so that many images gain the same. In a straight
// plan one image is taken in each step; in the others one image after the other comes to a bound.
static const struct run {
    const char *name;
    int32_t high, cost;
    bool even;
} RUNS[] = {
    {"straight", BOUND / 2, 1000, false},
    {"turning", 15000, 1000, false},
    {"even", 15000, 1, true},
};

struct found {
    int64_t steps;
    uint64_t cheapest, distance;
    int32_t plan[N];
};

static int32_t generators[MOVES * N], list[LIST * N], list_again[LIST * N], start[N], upper[N], costs[N];
static uint8_t exchanges[SENT * N], group[GROUP * N], group_again[GROUP * N];
static uint64_t counts[COUNTS], state;
static size_t rows;

static void fail(const char *what, int64_t result) {
    fprintf(stderr, "plan: %s: %" PRId64 "\n", what, result);
    exit(1);
}

static int64_t now(void) {
    struct timespec t;
    clock_gettime(CLOCK_MONOTONIC, &t);
    return (int64_t)t.tv_sec * 1000000000 + t.tv_nsec;
}

// ---- the order: all moves, the swaps of neighbouring rows and columns, and the transposition

static int swapped(int x, int at) { return x == at ? at + 1 : x == at + 1 ? at : x; }

static void make_order(void) {
    int32_t *g = generators;
    for (int a = 0; a < SIDE; a++)
        for (int c = a + 1; c < SIDE; c++)
            for (int b = 0; b < SIDE; b++)
                for (int d = b + 1; d < SIDE; d++, g += N) {
                    g[SIDE * a + b] = g[SIDE * c + d] = 1;
                    g[SIDE * a + d] = g[SIDE * c + b] = -1;
                }
    for (int e = 0; e < SENT; e++)
        for (int i = 0; i < SIDE; i++)
            for (int j = 0; j < SIDE; j++) {
                int a = e < 3 ? swapped(i, e) : e == 6 ? j : i, b = e < 3 ? j : e == 6 ? i : swapped(j, e - 3);
                exchanges[N * e + SIDE * i + j] = (uint8_t)(1 + SIDE * a + b);
            }
    int64_t result = sukoreta_lent_list(N, generators, MOVES * N, exchanges, SENT * N, NULL, 0, list, LIST * N, group,
                                        GROUP * N, counts, COUNTS);
    if (result < 1 || counts[1] != GROUP) fail("List refuses the order, or finds another group", result);
    rows = (size_t)result;
}

// ---- the plans

static int32_t below(int32_t bound) {
    state ^= state << 13;
    state ^= state >> 7;
    state ^= state << 17;
    return (int32_t)((state >> 32) % (uint32_t)bound);
}

static void make_plan(const struct run *run) {
    state = 20261117;
    for (int j = 0; j < N; j++) {
        start[j] = run->high;
        upper[j] = 2 * run->high;
        costs[j] = run->even ? 1 - 2 * ((j / SIDE + j) % 2) : (1 + below(run->cost)) * (1 - 2 * below(2));
    }
}

// ---- the call and the plain function

static void call(size_t budget, struct found *found) {
    found->steps = sukoreta_lent_plan(N, generators, MOVES * N, exchanges, SENT * N, NULL, 0, start, N, upper, N, costs,
                                      N, budget, list_again, LIST * N, group_again, GROUP * N, found->plan, N, counts,
                                      COUNTS);
    if (found->steps < 0) fail("the call refuses the plan", found->steps);
    found->cheapest = counts[1];
    found->distance = counts[2];
}

// The distinct images of the list's rows, each with the sign with which it gains something, in the sequence of the rows
// and positions; those that gain nothing are left out. Returned is their number.
static size_t expand(int32_t (*images)[N], int64_t *gains) {
    size_t found = 0;
    for (size_t r = 0; r < rows; r++)
        for (size_t p = 0; p < GROUP; p++) {
            if (found == MOST_IMAGES) fail("there are more images than", MOST_IMAGES);
            int32_t *w = images[found];
            int64_t gain = 0;
            for (int j = 0; j < N; j++) {
                w[j] = list[N * r + group[N * p + (size_t)j] - 1];
                gain -= (int64_t)w[j] * costs[j];
            }
            for (int j = 0; gain < 0 && j < N; j++) w[j] = -w[j];
            bool known = gain == 0;
            for (size_t i = 0; i < found && !known; i++) known = !memcmp(images[i], w, sizeof *images);
            if (!known) gains[found++] = gain < 0 ? -gain : gain;
        }
    return found;
}

static bool fits(const int32_t *plan, const int32_t *w) {
    for (int j = 0; j < N; j++) {
        int32_t x = plan[j] + w[j];
        if (x < 0 || x > upper[j]) return false;
    }
    return true;
}

static void plain(size_t budget, struct found *found) {
    static int32_t images[MOST_IMAGES][N];
    static int64_t gains[MOST_IMAGES];
    size_t count = expand(images, gains), best;
    int64_t gain;
    memcpy(found->plan, start, sizeof start);
    for (found->steps = 0;; found->steps++) {
        gain = 0;
        best = 0;
        for (size_t i = 0; i < count; i++)
            if (gains[i] > gain && fits(found->plan, images[i])) {
                gain = gains[i];
                best = i;
            }
        if (!gain || (size_t)found->steps == budget) break;
        for (int j = 0; j < N; j++) found->plan[j] += images[best][j];
    }
    found->cheapest = !gain;
    found->distance = 0;
    for (int j = 0; j < N; j++) {
        int32_t x = found->plan[j], rest = upper[j] - x;
        found->distance += (uint64_t)gain * (uint64_t)(x > rest ? x : rest);
    }
}

// ---- the times

// The nanoseconds of one plan.
static int64_t timed(void (*work)(size_t, struct found *), size_t budget, struct found *found, int round) {
    memset(found, round % 2 ? 0x55 : 0xff, sizeof *found);
    int64_t begun = now();
    work(budget, found);
    return now() - begun;
}

static void compare(const struct found *x, const struct found *y) {
    if (x->steps != y->steps) fail("the call and plain C differ by steps", x->steps - y->steps);
    if (x->cheapest != y->cheapest || x->distance != y->distance || memcmp(x->plan, y->plan, sizeof x->plan))
        fail("the call and plain C end otherwise after steps", x->steps);
}

static int ascending(const void *x, const void *y) {
    int64_t a = *(const int64_t *)x, b = *(const int64_t *)y;
    return (a > b) - (a < b);
}

static double median(const int64_t *times, int rounds) {
    return (double)(times[(rounds - 1) / 2] + times[rounds / 2]) / 2;
}

// Times of each round: with the whole budget, less that with budget 0; and with budget 0.
static void print_speed(const char *name, int64_t *times, int64_t *first, int rounds, int64_t steps, const char *end) {
    qsort(times, (size_t)rounds, sizeof *times, ascending);
    qsort(first, (size_t)rounds, sizeof *first, ascending);
    printf(" %s %.0f (%.0f) steps a second, %.4f (%.4f) ms with budget 0%s", name,
           (double)steps * 1e9 / median(times, rounds), (double)steps * 1e9 / (double)times[0],
           median(first, rounds) / 1e6, (double)first[0] / 1e6, end);
}

int main(int words, char **word) {
    static int64_t call_times[MOST_ROUNDS + 1], call_first[MOST_ROUNDS + 1];
    static int64_t plain_times[MOST_ROUNDS + 1], plain_first[MOST_ROUNDS + 1];
    int rounds = words > 1 ? atoi(word[1]) : 5;
    if (words > 2 || rounds < 1 || rounds > MOST_ROUNDS) fail("usage: plan [ROUNDS], at most", MOST_ROUNDS);
    make_order();
    for (const struct run *run = RUNS; run < RUNS + sizeof RUNS / sizeof *RUNS; run++) {
        struct found by_call, by_plain;
        make_plan(run);
        for (size_t budget = 1; budget < BUDGET; budget *= 10) {
            call(budget, &by_call);
            plain(budget, &by_plain);
            compare(&by_call, &by_plain);
        }
        for (int round = 0; round <= rounds; round++) {
            call_first[round] = timed(call, 0, &by_call, round);
            plain_first[round] = timed(plain, 0, &by_plain, round);
            compare(&by_call, &by_plain);
            call_times[round] = timed(call, BUDGET, &by_call, round) - call_first[round];
            plain_times[round] = timed(plain, BUDGET, &by_plain, round) - plain_first[round];
            compare(&by_call, &by_plain);
        }
        if (by_call.steps < BUDGET / 4) fail("too few steps", by_call.steps);
        printf("%s, %" PRId64 " steps, %s:", run->name, by_call.steps, by_call.cheapest ? "cheapest" : "left");
        print_speed("call", call_times + 1, call_first + 1, rounds, by_call.steps, ";");
        print_speed("plain C", plain_times + 1, plain_first + 1, rounds, by_call.steps, "\n");
        fflush(stdout);
    }
}
