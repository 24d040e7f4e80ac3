/* What memory a block of the proved library takes. */
#ifndef FERRETGOLD_HEAP_H
#define FERRETGOLD_HEAP_H

#include <stdint.h>

/* Behind each block but those of bytes is a cache line that nobody writes, so that no two clients, which
 * different threads write, have a part on the same one. A block of two large pages or more takes whole ones. */
enum { LINE = 64, LARGE_PAGE = 1 << 21, LARGE_BLOCK = 2 * LARGE_PAGE };

/* How many bytes a block of so many takes, which are less than 2^63. */
static inline uint64_t taken(uint64_t bytes) {
    const uint64_t all = bytes + LINE;
    return all < LARGE_BLOCK ? all : (all + LARGE_PAGE - 1) / LARGE_PAGE * LARGE_PAGE;
}

#endif
