/* How many uses an entry of a cache of objects has, which no call says: by which of two goes first where a third
 * needs the room of one. For C and C++. */
#ifndef OUTLIVES_H
#define OUTLIVES_H

#include "ferretgold_object.h"

enum { RACES = 12, RACER = 1 /* the first word of its entry's key */ };

static inline ferretgold_key racer_key(uint64_t number) {
    const ferretgold_key key = {number, 7};
    return key;
}

/* Room for what two entries of charge 10 are charged, and not for three. */
static inline ferretgold_object_config racing_config(uint64_t seed) {
    ferretgold_object_config it = FERRETGOLD_OBJECT_CONFIG;
    it.slots = 16;
    it.clients = 2;
    it.handles = 4;
    it.gone = 16;
    it.shards = 1;
    it.strict = true;
    it.capacity = 20;
    it.seed = seed;
    return it;
}

static inline bool is_there(ferretgold_object_cache *cache, uint64_t number) {
    const ferretgold_key key = racer_key(number);
    const ferretgold_object_handle *handle = NULL;
    if (ferretgold_object_lookup(cache, &key, &handle) != FERRETGOLD_OK) {
        return false;
    }
    (void)ferretgold_object_release(cache, handle, false, false, NULL);
    return true;
}

/* What came of a race. Of two with as many uses the clock lets one go, or both, or neither, by where they lie. */
typedef enum race_end { GOES, STAYS, EVEN } race_end;

/* Puts an entry of this priority beside the one that stands in such a cache, and then a third one: what becomes
 * of the first. */
static inline race_end raced(ferretgold_object_cache *cache, ferretgold_priority rival) {
    const ferretgold_key second = racer_key(RACER + 1), third = racer_key(RACER + 2);
    (void)ferretgold_object_insert(cache, &second, NULL, 0, 10, rival, NULL);
    (void)ferretgold_object_insert(cache, &third, NULL, 0, 10, FERRETGOLD_HIGH, NULL);
    const bool stays = is_there(cache, RACER), is_rival_there = is_there(cache, RACER + 1);
    return stays == is_rival_there ? EVEN : stays ? STAYS : GOES;
}

/* Opens such a cache, puts the first entry there, and has it race. */
typedef race_end racing(void *context, const ferretgold_object_config *config, ferretgold_priority rival);

/* The uses of that entry, 3 also for more: it stays beside each rival of fewer, goes before each of more, and
 * does neither always beside one of as many. -1 if that isn't so. */
static inline int uses_by(racing *race, void *context) {
    int goes = 0, stays = 0;
    for (int rival = FERRETGOLD_HIGH; rival <= FERRETGOLD_BOTTOM; rival++) {
        int ends[3] = {0, 0, 0};
        for (uint64_t seed = 1; seed <= RACES; seed++) {
            const ferretgold_object_config config = racing_config(seed);
            ends[race(context, &config, (ferretgold_priority)rival)] += 1;
        }
        goes += ends[GOES] == RACES;
        stays += ends[STAYS] == RACES;
    }
    return goes == 3 || goes + stays == 2 ? 3 - goes : -1;
}

#endif
