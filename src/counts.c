/* What a client's calls came to, for any thread to read. */
#include "counts.h"
#include "ferretgold_object.h" /* for its statuses */

/* A number that another thread writes, or this one did. */
static uint64_t seen(const uint64_t *number) {
    return __atomic_load_n(number, __ATOMIC_RELAXED);
}

static void tell(uint64_t *number, uint64_t now) {
    __atomic_store_n(number, now, __ATOMIC_RELAXED);
}

void count_lost(ferretgold_counts *it, uint64_t lost) {
    tell(&it->lost, lost);
}

static void rise(uint64_t *number, uint64_t before, uint64_t after) {
    tell(number, seen(number) + (after - before));
}

void count_done(ferretgold_counts *it, const ferretgold_stats *before,
                const ferretgold_stats *after) {
    rise(&it->evicted, before->evicted, after->evicted);
    rise(&it->evicted_hit, before->evicted_hit, after->evicted_hit);
    rise(&it->freed, before->freed, after->freed);
    rise(&it->turns, before->turns, after->turns);
    rise(&it->lost, before->lost, after->lost);
}

uint64_t *class_of(ferretgold_counts *it, uint64_t turns) {
    const uint32_t last = sizeof it->by_turns / sizeof it->by_turns[0] - 1;
    uint32_t k = 0;
    while (k < last && turns > UINT64_C(1) << k >> 1) {
        k++;
    }
    return &it->by_turns[k];
}

/* Whether the cache was asked to insert something, and refused. */
static bool is_refused(uint32_t status) {
    switch (status) {
    case FERRETGOLD_HANDLES_FULL:
    case FERRETGOLD_SPENT:
    case FERRETGOLD_TOO_LARGE:
    case FERRETGOLD_CAPACITY_FULL:
    case FERRETGOLD_OCCUPANCY_FULL:
    case FERRETGOLD_OUT_OF_MEMORY:
    case FERRETGOLD_NO_CLIENT:
    case FERRETGOLD_GONE_FULL: return true;
    default: return false;
    }
}

uint64_t *outcome_of(ferretgold_counts *it, uint32_t status, uint32_t inserted, bool met) {
    if (status != FERRETGOLD_OK) {
        return is_refused(status) ? &it->refused : NULL;
    }
    if (met) {
        return &it->there;
    }
    switch (inserted) {
    case FERRETGOLD_PLACED: return &it->placed;
    case FERRETGOLD_DROPPED: return &it->dropped;
    default: return &it->standalone;
    }
}

/* The proved client's boosts rise by one in an insertion that met an entry of its key, and which so was
 * left out, and in no other call: `boosts` of LeavesOut, PutsIn and Refuses, which InsertedAs and
 * PinnedAs say of each insertion (crates/hcc_shard/specs/Reserving.antt), and of SameEvictions for
 * what else there is (Counted.antt). So `there` is their number, and an insertion that raised it is
 * one of these. */
bool count_insertion(ferretgold_counts *it, uint32_t status, uint32_t inserted,
                     const ferretgold_stats *before, const ferretgold_stats *after) {
    const bool met = after->boosts != before->boosts;
    uint64_t *outcome = outcome_of(it, status, inserted, met);
    if (outcome != NULL) {
        count_more(outcome);
        count_more(class_of(it, after->turns - before->turns));
        count_done(it, before, after);
    }
    return met;
}

static void add(const uint64_t *number, uint64_t *sum) {
    *sum += seen(number);
}

void counts_added(const ferretgold_counts *it, ferretgold_counts *sum) {
    add(&it->hits, &sum->hits);
    add(&it->misses, &sum->misses);
    add(&it->placed, &sum->placed);
    add(&it->there, &sum->there);
    add(&it->dropped, &sum->dropped);
    add(&it->standalone, &sum->standalone);
    add(&it->refused, &sum->refused);
    add(&it->evicted, &sum->evicted);
    add(&it->evicted_hit, &sum->evicted_hit);
    add(&it->freed, &sum->freed);
    add(&it->turns, &sum->turns);
    add(&it->lost, &sum->lost);
    for (size_t k = 0; k < sizeof it->by_turns / sizeof it->by_turns[0]; k++) {
        add(&it->by_turns[k], &sum->by_turns[k]);
    }
}
