/* What a client's calls came to, for any thread to read. Only the thread whose the client is just then
 * writes there, so that loading a number and storing it anew loses nothing: by relaxed steps, none of
 * which is locked. */
#ifndef COUNTS_H
#define COUNTS_H

#include "ferretgold.h"

static inline void count_more(uint64_t *number) {
/* By one instruction, of which compilers make three, but where ThreadSanitizer looks. */
#if defined __x86_64__ && !defined __SANITIZE_THREAD__
    __asm__("addq $1, %0" : "+m"(*number) : : "cc");
#else
    __atomic_store_n(number, __atomic_load_n(number, __ATOMIC_RELAXED) + 1, __ATOMIC_RELAXED);
#endif
}

/* The same of a number that several threads write. */
static inline void count_together(uint64_t *number) {
    (void)__atomic_fetch_add(number, 1, __ATOMIC_RELAXED);
}

/* How many exchanges the proved client says that its calls lost so far. */
void count_lost(ferretgold_counts *it, uint64_t lost);

/* Which number counts an insertion of this status and, where that is OK, outcome, whether it met its key;
 * null if none does. */
uint64_t *outcome_of(ferretgold_counts *it, uint32_t status, uint32_t inserted, bool met);

/* Counts what a try to insert did, before and after which the proved client says this of the key's shard. */
void count_done(ferretgold_counts *it, const ferretgold_stats *before, const ferretgold_stats *after);

/* Where an insertion of so many turns is counted. */
uint64_t *class_of(ferretgold_counts *it, uint64_t turns);

/* Counts an insertion, before and after which the proved client says this of the key's shard. Whether it
 * met its key. */
bool count_insertion(ferretgold_counts *it, uint32_t status, uint32_t inserted,
                     const ferretgold_stats *before, const ferretgold_stats *after);

/* Adds a client's numbers to a sum of the caller's. */
void counts_added(const ferretgold_counts *it, ferretgold_counts *sum);

#endif
