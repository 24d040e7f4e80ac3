/* What a cache needs that nobody can foresee: a seed, and where caches are numbered from. */
#include "opening.h"

#include <stdatomic.h>
#include <sys/random.h>

/* Draws a number. False where the system has none yet, for which nobody waits: it stays then. */
static bool drawn(uint64_t *number) {
    return getrandom(number, sizeof *number, GRND_NONBLOCK) == (ssize_t)sizeof *number;
}

ferretgold_status seed_drawn(uint64_t *seed) {
    uint64_t it = 0;
    if (*seed != 0) {
        return FERRETGOLD_OK;
    }
    if (!drawn(&it)) {
        return FERRETGOLD_NO_SEED;
    }
    /* Neither of the two that mean something else. */
    *seed = it == 0 || it == FERRETGOLD_UNSEEDED ? it ^ 1 : it;
    return FERRETGOLD_OK;
}

uint64_t seed_proved(uint64_t seed) {
    return seed != FERRETGOLD_UNSEEDED ? seed : 0;
}

/* Where this copy of the library begins to number caches, so that it takes no handle of another copy's
 * in the process for its own. Where the system has no number yet it is where the copy lies. */
static uint64_t first_number(void) {
    static _Atomic(uint64_t) first = 0;
    uint64_t it = atomic_load(&first);
    if (it == 0) {
        uint64_t fresh = (uintptr_t)&first;
        (void)drawn(&fresh);
        fresh = fresh % UINT32_MAX + 1;
        it = atomic_compare_exchange_strong(&first, &it, fresh) ? fresh : it;
    }
    return it;
}

uint32_t cache_number(void) {
    static _Atomic(uint64_t) opened = 0;
    return (uint32_t)((first_number() + atomic_fetch_add(&opened, 1)) % UINT32_MAX) + 1;
}
