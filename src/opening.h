/* What opening a cache takes of the file that has caches. */
#ifndef OPENING_H
#define OPENING_H

#include "ferretgold_raw.h"
#include "limits.h"

/* A function's plain name, for other languages, beside the one by which C links it. */
#define PLAINLY(name) \
    extern __typeof__(name) name##_plainly __asm__(#name) \
        __attribute__((alias(FERRETGOLD_TEXT(FERRETGOLD_OF_VERSION(name)))))

/* ---- drawing.c ------------------------------------------------------------------------------- */

/* Draws a seed where 0 stands for one, and refuses by NO_SEED. */
ferretgold_status seed_drawn(uint64_t *seed);

/* A seed as the proved library has it, whose keys stay as they are under 0. */
uint64_t seed_proved(uint64_t seed);

/* A number that no cache of this copy of the library had, of 2^32 - 1: never 0. */
uint32_t cache_number(void);

/* ---- ferretgold.c ---------------------------------------------------------------------------- */

/* What is refused whatever memory there is: so no cache that is refused so takes a number. What
 * isn't goes to `seeded`, with its seed. */
ferretgold_status cache_judge(const ferretgold_config *config, ferretgold_cache **cache,
                              ferretgold_config *seeded);

/* A configuration as the proved library takes it. */
ferretgold_config cache_proved(const ferretgold_config *seeded);

/* What the proved library opens: a cache, and a client in the place of each number. */
typedef struct opened_cache {
    ferretgold_object cache;
    ferretgold_object client[MOST_CLIENTS];
} opened_cache;

/* A cache of this file, with no client yet: NULL if memory is refused. */
ferretgold_cache *cache_made(const ferretgold_config *config);

/* Makes it one that programs may use, of what the proved library opened; frees it if that refused. */
ferretgold_status cache_begin(ferretgold_cache *it, uint32_t status, const opened_cache *opened,
                              ferretgold_cache **cache);

#endif
