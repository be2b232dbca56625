// Times the window over a run of draws, on the 3 by 3 table with its group of 72, beside a plain C function that reads
// the window afresh for each record.
//
//   window [ROUNDS]
//
// In each round (9 if no number is given, and one before the first that is not counted) a run of records is worked by
// the call, its List included, and by the plain function, which has the list and the group's table, and n and the
// chosen cell as constants. Both must write the same answers. For each run a line has the records a second of both: the
// median and, in brackets, the best. Records are drawn with a fixed seed, so that all are accepted.
#include <inttypes.h>
#include <stdbool.h>
#include <stdio.h>
#include <stdlib.h>
#include <string.h>
#include <time.h>

#include "sukoreta.h"

enum { N = 9, MOVES = 9, SENT = 5, LIST = 128, GROUP = 1152, MEMBERS = 72, COUNTS = 16 };
enum { RECORDS = 1000000, RECORD = 3, ANSWER = N + 3, CELL = 1, BOUND = 1000000, STRETCH = 2000, MOST_ROUNDS = 1000 };

// The chosen cell of a run goes up in one stretch of records and down in the next: each image changes it that way by
// `least` or more. In a straight run all images are the first one or, where the cell goes down, its negative.
static const struct run {
    const char *name;
    size_t width;
    int32_t start;  // each entry of the table
    int32_t least;  // with -1 any image will do
    bool straight;
} RUNS[] = {
    {"random", 1, 50, -1, false},
    {"random", 16, 50, -1, false},
    {"random", 256, 50, -1, false},
    {"slow", 256, BOUND / 2, 0, false},
    {"straight", 256, BOUND / 2, 1, true},
};

static int32_t generators[MOVES * N], list[LIST * N], list_again[LIST * N], start[N], records[RECORD * RECORDS];
static int32_t call_answers[ANSWER * RECORDS], plain_answers[ANSWER * RECORDS];
static uint8_t exchanges[SENT * N], group[GROUP * N], group_again[GROUP * N];
static uint64_t counts[COUNTS], state;
static int32_t rows;

static void fail(const char *what, int64_t result) {
    fprintf(stderr, "window: %s: %" PRId64 "\n", what, result);
    exit(1);
}

static int64_t now(void) {
    struct timespec t;
    clock_gettime(CLOCK_MONOTONIC, &t);
    return (int64_t)t.tv_sec * 1000000000 + t.tv_nsec;
}

// ---- the order: all moves, the swaps of neighbouring rows and columns, and the transposition

static int swapped(int x, int at) { return x == at ? at + 1 : x == at + 1 ? at : x; }

static void make_order(void) {
    int32_t *g = generators;
    for (int a = 0; a < 3; a++)
        for (int c = a + 1; c < 3; c++)
            for (int b = 0; b < 3; b++)
                for (int d = b + 1; d < 3; d++, g += N) {
                    g[3 * a + b] = g[3 * c + d] = 1;
                    g[3 * a + d] = g[3 * c + b] = -1;
                }
    for (int e = 0; e < SENT; e++)
        for (int i = 0; i < 3; i++)
            for (int j = 0; j < 3; j++) {
                int a = e < 2 ? swapped(i, e) : e == 4 ? j : i, b = e < 2 ? j : e == 4 ? i : swapped(j, e - 2);
                exchanges[N * e + 3 * i + j] = (uint8_t)(1 + 3 * a + b);
            }
    int64_t result = sukoreta_lent_list(N, generators, MOVES * N, exchanges, SENT * N, NULL, 0, list, LIST * N, group,
                                        GROUP * N, counts, COUNTS);
    if (result < 1 || counts[1] != MEMBERS) fail("List refuses the order, or finds another group", result);
    rows = (int32_t)result;
}

// ---- the records

static int32_t below(int32_t bound) {
    state ^= state << 13;
    state ^= state >> 7;
    state ^= state << 17;
    return (int32_t)((state >> 32) % (uint32_t)bound);
}

static int32_t change(const int32_t *record, int j) {
    return record[2] * list[N * record[0] + group[N * record[1] + j] - 1];
}

// Whether the image leaves every entry within its bounds. Only then the table is changed.
static bool moved(int32_t *table, const int32_t *record) {
    int32_t next[N];
    for (int j = 0; j < N; j++) {
        next[j] = table[j] + change(record, j);
        if (next[j] < 0 || next[j] > BOUND) return false;
    }
    memcpy(table, next, sizeof next);
    return true;
}

// A record that does not fit is drawn again.
static void draw(const struct run *run) {
    int32_t table[N];
    for (int j = 0; j < N; j++) table[j] = start[j] = run->start;
    state = 20261117;
    for (int i = 0; i < RECORDS; i++) {
        int32_t *record = records + RECORD * i, way = i / STRETCH % 2 ? -1 : 1;
        do {
            bool again = run->straight && i > 0;
            record[0] = again ? records[0] : below(rows);
            record[1] = again ? records[1] : below(MEMBERS);
            record[2] = again ? way * records[2] : 1 - 2 * below(2);
        } while (way * change(record, CELL - 1) < run->least || !moved(table, record));
    }
}

// ---- the call and the plain function

static int64_t call(size_t width) {
    return sukoreta_lent_window(N, generators, MOVES * N, exchanges, SENT * N, NULL, 0, start, N, width, CELL, records,
                                RECORD * RECORDS, list_again, LIST * N, group_again, GROUP * N, call_answers,
                                ANSWER * RECORDS, counts, COUNTS);
}

// The number of records, or -1 if one is refused.
static int64_t plain(size_t width) {
    int32_t table[N];
    uint8_t used[LIST];
    memcpy(table, start, sizeof table);
    for (size_t i = 0; i < RECORDS; i++) {
        int32_t row = records[RECORD * i], position = records[RECORD * i + 1], sign = records[RECORD * i + 2];
        if (row < 0 || row >= rows || position < 0 || position >= MEMBERS || (sign != 1 && sign != -1)) return -1;
        int32_t *answer = plain_answers + ANSWER * i;
        for (int j = 0; j < N; j++) {
            table[j] += sign * list[N * row + group[N * position + j] - 1];
            if (table[j] < 0 || table[j] > BOUND) return -1;
            answer[j] = table[j];
        }
        int32_t least = table[CELL - 1], most = least, different = 0;
        memset(used, 0, (size_t)rows);
        for (size_t k = i < width ? 0 : i + 1 - width; k <= i; k++) {
            int32_t x = plain_answers[ANSWER * k + CELL - 1];
            if (x < least) least = x;
            if (x > most) most = x;
            used[records[RECORD * k]] = 1;
        }
        for (int32_t r = 0; r < rows; r++) different += used[r];
        answer[N] = least;
        answer[N + 1] = most;
        answer[N + 2] = different;
    }
    return RECORDS;
}

// ---- the times

// The nanoseconds of one run, whatever its answers' area held before.
static int64_t timed(int64_t (*work)(size_t), size_t width, int32_t *answers, int round) {
    memset(answers, round % 2 ? 0x55 : 0xff, sizeof call_answers);
    int64_t begun = now(), result = work(width), time = now() - begun;
    if (result != RECORDS) fail(work == call ? "the call refuses a record" : "plain C refuses a record", result);
    return time;
}

static int ascending(const void *x, const void *y) {
    int64_t a = *(const int64_t *)x, b = *(const int64_t *)y;
    return (a > b) - (a < b);
}

static void print_speed(const char *name, int64_t *times, int rounds, const char *end) {
    qsort(times, (size_t)rounds, sizeof *times, ascending);
    int64_t median = (times[(rounds - 1) / 2] + times[rounds / 2]) / 2;
    printf(" %s %.0f (%.0f)%s", name, RECORDS * 1e9 / (double)median, RECORDS * 1e9 / (double)times[0], end);
}

int main(int count, char **words) {
    static int64_t call_times[MOST_ROUNDS + 1], plain_times[MOST_ROUNDS + 1];
    int rounds = count > 1 ? atoi(words[1]) : 9;
    if (count > 2 || rounds < 1 || rounds > MOST_ROUNDS) fail("usage: window [ROUNDS], at most", MOST_ROUNDS);
    make_order();
    for (const struct run *run = RUNS; run < RUNS + sizeof RUNS / sizeof *RUNS; run++) {
        draw(run);
        for (int round = 0; round <= rounds; round++) {
            call_times[round] = timed(call, run->width, call_answers, round);
            plain_times[round] = timed(plain, run->width, plain_answers, round);
            if (memcmp(call_answers, plain_answers, sizeof call_answers)) fail("answers differ in round", round);
        }
        printf("%s, W %zu:", run->name, run->width);
        print_speed("call", call_times + 1, rounds, " records a second,");
        print_speed("plain C", plain_times + 1, rounds, "\n");
        fflush(stdout);
    }
}
