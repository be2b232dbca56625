// Times the ways to work one order, in rounds, or makes a single call.
//
//   driver time ORDER ROUNDS PROGRAM
//   driver call ORDER SERVICE
//
// ORDER.list, and ORDER.split and ORDER.check if they are there, are order files; ORDER.lat is the lattice for 4ti2.
// In each round PROGRAM works ORDER.list, 4ti2-graver works ORDER.lat, and then the calls list, split and check are
// made CALLS times each. Each of these prints its name and its nanoseconds on a line; a round before the first prints
// nothing. PROGRAM writes ORDER.text, 4ti2-graver writes ORDER.gra, and the calls' answers go to ORDER.list.answer and
// so on.
#include <fcntl.h>
#include <inttypes.h>
#include <spawn.h>
#include <stdio.h>
#include <stdlib.h>
#include <string.h>
#include <sys/wait.h>
#include <time.h>

#include "sukoreta.h"

enum { CALLS = 3, SERVICES = 3, PATH = 1024 };

typedef int64_t call(const uint8_t *order, size_t order_length, uint8_t *answer, size_t answer_length);

static struct {
    const char *name;
    call *call;
    size_t length;  // of the order; 0 if there is none
    uint8_t order[SUKORETA_ORDER_LIMIT];
    int64_t first;  // what the first call returned, and its answer
    uint8_t answer[SUKORETA_ANSWER_LIMIT];
} services[SERVICES] = {
    {.name = "list", .call = sukoreta_list},
    {.name = "split", .call = sukoreta_split},
    {.name = "check", .call = sukoreta_check},
};

extern char **environ;

static void fail(const char *what, const char *of) {
    fprintf(stderr, "driver: %s: %s\n", of, what);
    exit(1);
}

static int64_t now(void) {
    struct timespec t;
    clock_gettime(CLOCK_MONOTONIC, &t);
    return (int64_t)t.tv_sec * 1000000000 + t.tv_nsec;
}

// The name of a file of the order.
static const char *file(const char *order, const char *service, const char *end) {
    static char path[PATH];
    if (snprintf(path, PATH, "%s.%s%s", order, service, end) >= PATH) fail("the name is too long", order);
    return path;
}

static void read_orders(const char *order) {
    for (int s = 0; s < SERVICES; s++) {
        FILE *f = fopen(file(order, services[s].name, ""), "rb");
        if (!f) continue;
        services[s].length = fread(services[s].order, 1, SUKORETA_ORDER_LIMIT, f);
        fclose(f);
    }
}

// Times a call. All calls of a service must answer as its first one, whatever the area held before.
static int64_t time_call(int s, int round) {
    static uint8_t answer[SUKORETA_ANSWER_LIMIT];
    memset(answer, round % 2 ? 0x55 : 0xff, sizeof answer);
    int64_t start = now();
    int64_t result = services[s].call(services[s].order, services[s].length, answer, sizeof answer);
    int64_t end = now();
    if (result < 0) fail("the order is refused", services[s].name);
    if (!services[s].first) {
        services[s].first = result;
        memcpy(services[s].answer, answer, sizeof answer);
    }
    if (result != services[s].first || memcmp(answer, services[s].answer, sizeof answer))
        fail("two calls answered differently", services[s].name);
    return end - start;
}

// Times a process from its start to its end.
static int64_t time_process(char **command, const char *input, const char *output) {
    posix_spawn_file_actions_t files;
    pid_t child;
    int status;
    if (posix_spawn_file_actions_init(&files) ||
        posix_spawn_file_actions_addopen(&files, 0, input, O_RDONLY, 0) ||
        posix_spawn_file_actions_addopen(&files, 1, output, O_WRONLY | O_CREAT | O_TRUNC, 0644))
        fail("no room", command[0]);
    int64_t start = now();
    if (posix_spawnp(&child, command[0], &files, NULL, command, environ)) fail("it cannot be started", command[0]);
    if (waitpid(child, &status, 0) != child) fail("it was lost", command[0]);
    int64_t end = now();
    if (!WIFEXITED(status) || WEXITSTATUS(status)) fail("it failed", command[0]);
    posix_spawn_file_actions_destroy(&files);
    return end - start;
}

static void print_time(const char *name, int64_t time, int round) {
    if (round) printf("%s %" PRId64 "\n", name, time);
}

static int time_order(char *order, int rounds, char *program) {
    char *ours[] = {program, NULL}, *theirs[] = {"4ti2-graver", "-q", order, NULL};
    char input[PATH], output[PATH];
    strcpy(input, file(order, "list", ""));
    strcpy(output, file(order, "text", ""));
    for (int round = 0; round <= rounds; round++) {
        print_time("program", time_process(ours, input, output), round);
        print_time("graver", time_process(theirs, "/dev/null", "/dev/null"), round);
        for (int s = 0; s < SERVICES; s++)
            for (int c = 0; services[s].length && c < CALLS; c++)
                print_time(services[s].name, time_call(s, round), round);
    }
    for (int s = 0; s < SERVICES; s++) {
        if (!services[s].length) continue;
        FILE *f = fopen(file(order, services[s].name, ".answer"), "wb");
        if (!f || fwrite(services[s].answer, 1, (size_t)services[s].first, f) != (size_t)services[s].first || fclose(f))
            fail("the answer cannot be written", order);
    }
    return 0;
}

int main(int count, char **words) {
    if (count < 4) fail("see the first comment of driver.c", "usage");
    read_orders(words[2]);
    if (count == 5 && !strcmp(words[1], "time")) return time_order(words[2], atoi(words[3]), words[4]);
    for (int s = 0; s < SERVICES; s++)
        if (!strcmp(words[1], "call") && !strcmp(words[3], services[s].name)) return time_call(s, 0) < 0;
    fail("see the first comment of driver.c", "usage");
}
