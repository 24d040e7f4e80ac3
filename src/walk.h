/* What walks over caches share, and one over a cache of objects to its end, of public calls alone. */
#ifndef WALK_H
#define WALK_H

#include "ferretgold_object.h"

#include <sched.h>

/* Looks at a slot, and visits its entry, if it shows one. Whether the walk's call goes on; a status above
 * MISS refuses the slot. */
typedef bool look_at(void *walk, const ferretgold_place *place, ferretgold_status *status);

/* ---- walk.c ---------------------------------------------------------------------------------- */

/* Looks at the next slots of a walk, at most so many, and returns what ferretgold_walk does. */
ferretgold_status looked_at(ferretgold_place *place, uint64_t most, uint32_t shards, uint32_t slots,
                            look_at *look, void *walk);

/* ---- ferretgold.c ---------------------------------------------------------------------------- */

/* The configuration of a client's cache. Whether the client is out. */
bool client_config(ferretgold_client *client, ferretgold_config *config);

/* ---- To its end ------------------------------------------------------------------------------ */

/* How often a slot is tried whose entry can't be held. */
enum { TRIES = 64 };

/* Visits all that a walk finds, unless `visit` ends it: MISS at its end, also where that was in the last slot,
 * else OK; or why a slot was refused each time. */
static inline ferretgold_status walked(ferretgold_object_cache *cache,
                                       ferretgold_object_visit *visit, void *context) {
    ferretgold_object_place place = {0, 0};
    for (int tries = 1;; tries++) {
        const ferretgold_object_place from = place;
        const ferretgold_status status =
            ferretgold_object_walk(cache, &place, UINT64_MAX, visit, context);
        if (status <= FERRETGOLD_MISS) {
            return status;
        }
        if (from.shard != place.shard || from.slot != place.slot) {
            tries = 1;
        } else if (tries == TRIES) {
            return status;
        }
        (void)sched_yield();
    }
}

#endif
