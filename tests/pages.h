// Blocks between pages that may not be touched: a step out of a block at one of its ends ends the program.
#ifndef PAGES_H
#define PAGES_H

#include <stdbool.h>
#include <stdint.h>
#include <stdio.h>
#include <stdlib.h>
#include <sys/mman.h>
#include <unistd.h>

struct pages {
    uint8_t *start;
    size_t size;
};

static inline struct pages between_guards(size_t size) {
    size_t page = (size_t)sysconf(_SC_PAGESIZE);
    size_t inner = (size + page - 1) / page * page;
    uint8_t *all = mmap(NULL, inner + 2 * page, PROT_NONE, MAP_PRIVATE | MAP_ANONYMOUS, -1, 0);
    if (all == MAP_FAILED || mprotect(all + page, inner, PROT_READ | PROT_WRITE)) {
        printf("no memory\n");
        exit(1);
    }
    return (struct pages){all + page, inner};
}

static inline uint8_t *block(struct pages pages, size_t length, bool at_end) {
    return at_end ? pages.start + pages.size - length : pages.start;
}

#endif
