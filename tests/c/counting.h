/* What the tests of counts share: drawn numbers, faults, and readers whom no count may fall for. */
#ifndef COUNTING_H
#define COUNTING_H

#include "ferretgold.h"

#include <stdatomic.h>
#include <stdio.h>
#include <string.h>

enum { WORKERS = 8, READERS = 2, NUMBERS = sizeof(ferretgold_counts) / sizeof(uint64_t) };

/* What a worker has begun and ended of calls that look for a key, and of insertions. */
typedef struct progress {
    _Alignas(64) atomic_ullong looks[2];
    atomic_ullong insertions[2];
} progress;

static progress of_worker[WORKERS];
static atomic_ulong faults;
static atomic_bool is_over;

#define MUST(is) must((is), #is, __LINE__)
static inline void must(bool is, const char *what, int line) {
    if (!is && atomic_fetch_add(&faults, 1) < 10) {
        printf("line %d: not so: %s\n", line, what);
    }
}

static inline uint64_t drawn(uint64_t *state) {
    *state ^= *state << 13;
    *state ^= *state >> 7;
    *state ^= *state << 17;
    return *state;
}

/* Whether no number is below what it was, which it becomes. */
static inline bool grew(ferretgold_counts *was, const ferretgold_counts *is) {
    uint64_t old[NUMBERS], now[NUMBERS];
    bool grew = true;
    memcpy(old, was, sizeof old);
    memcpy(now, is, sizeof now);
    for (size_t k = 0; k < NUMBERS; k++) {
        grew &= now[k] >= old[k];
    }
    *was = *is;
    return grew;
}

static inline uint64_t looks(const ferretgold_counts *it) {
    return it->hits + it->misses;
}

static inline uint64_t insertions(const ferretgold_counts *it) {
    return it->placed + it->there + it->dropped + it->standalone + it->refused;
}

/* How much of one kind all workers have begun (0) or ended (1). */
static inline void so_far(int which, uint64_t sums[2]) {
    sums[0] = sums[1] = 0;
    for (int k = 0; k < WORKERS; k++) {
        sums[0] += atomic_load(&of_worker[k].looks[which]);
        sums[1] += atomic_load(&of_worker[k].insertions[which]);
    }
}

/* Reads the counts by `read`: they have all that ended before, and no more than began since. */
static inline void look_once(ferretgold_status (*read)(ferretgold_counts *), ferretgold_counts *was) {
    uint64_t ended[2], begun[2];
    ferretgold_counts is;
    so_far(1, ended);
    MUST(read(&is) == FERRETGOLD_OK);
    so_far(0, begun);
    MUST(looks(&is) >= ended[0] && looks(&is) <= begun[0]);
    MUST(insertions(&is) >= ended[1] && insertions(&is) <= begun[1]);
    MUST(grew(was, &is));
}

#endif
