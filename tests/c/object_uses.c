/* What calls on a cache of objects are for an entry: how many uses it has after each, by which of two goes
 * first; and what isn't a use. */
#include "object_test.h"
#include "outlives.h"

#include <pthread.h>

static void delete_nothing(void *context, const ferretgold_key *key, void *object, uint16_t kind) {
    (void)context, (void)key, (void)object, (void)kind;
}

/* What is done with the entry, and whether that is a use. */
typedef struct way {
    const char *name;
    void (*put)(ferretgold_object_cache *cache, ferretgold_priority priority, bool useful);
    ferretgold_priority priority;
    bool useful;
    int uses;
} way;

static void insert(ferretgold_object_cache *cache, ferretgold_priority priority, bool useful) {
    const ferretgold_key key = racer_key(RACER);
    (void)useful;
    EXPECT(ferretgold_object_insert(cache, &key, NULL, 0, 10, priority, NULL), FERRETGOLD_OK);
}

static void insert_cold(ferretgold_object_cache *cache, ferretgold_priority priority, bool useful) {
    const ferretgold_key key = racer_key(RACER);
    (void)useful;
    EXPECT(ferretgold_object_insert_pinned(cache, &key, NULL, 0, 10, priority, NULL, NULL), FERRETGOLD_OK);
}

static void release(ferretgold_object_cache *cache, const ferretgold_object_handle *handle, bool useful) {
    EXPECT(ferretgold_object_release(cache, handle, useful, false, NULL), FERRETGOLD_OK);
}

static void insert_pinned(ferretgold_object_cache *cache, ferretgold_priority priority, bool useful) {
    const ferretgold_key key = racer_key(RACER);
    const ferretgold_object_handle *handle = NULL;
    EXPECT(ferretgold_object_insert_pinned(cache, &key, NULL, 0, 10, priority, NULL, &handle), FERRETGOLD_OK);
    release(cache, handle, useful);
}

/* A handle on the entry once it was inserted. */
static const ferretgold_object_handle *found(ferretgold_object_cache *cache, ferretgold_priority priority) {
    const ferretgold_key key = racer_key(RACER);
    const ferretgold_object_handle *handle = NULL;
    insert(cache, priority, false);
    EXPECT(ferretgold_object_lookup(cache, &key, &handle), FERRETGOLD_OK);
    return handle;
}

static void look_up(ferretgold_object_cache *cache, ferretgold_priority priority, bool useful) {
    release(cache, found(cache, priority), useful);
}

/* Of two references what the last one says counts. */
static void refer_twice(ferretgold_object_cache *cache, ferretgold_priority priority, bool useful) {
    const ferretgold_object_handle *handle = found(cache, priority);
    EXPECT(ferretgold_object_ref(cache, handle), FERRETGOLD_OK);
    release(cache, handle, !useful);
    release(cache, handle, useful);
}

typedef struct given {
    ferretgold_object_cache *cache;
    const ferretgold_object_handle *handle;
    bool useful;
} given;

static void *release_there(void *argument) {
    given *it = argument;
    release(it->cache, it->handle, it->useful);
    return NULL;
}

/* Another thread gives the handle back, by the queue of its client. */
static void release_elsewhere(ferretgold_object_cache *cache, ferretgold_priority priority, bool useful) {
    given it = {cache, found(cache, priority), useful};
    pthread_t thread;
    EXPECT(pthread_create(&thread, NULL, release_there, &it), 0);
    EXPECT(pthread_join(thread, NULL), 0);
    EXPECT(ferretgold_object_collect(cache), FERRETGOLD_OK);
}

static void pin_each(ferretgold_object_cache *cache, ferretgold_priority priority, bool useful) {
    const ferretgold_object_handle *handle = NULL;
    insert(cache, priority, false);
    for (uint32_t slot = 0; slot < 16; slot++) {
        if (ferretgold_object_pin_at(cache, 0, slot, &handle) == FERRETGOLD_OK) {
            release(cache, handle, useful);
        }
    }
}

static bool visit(void *context, const ferretgold_object_handle *handle) {
    (void)context;
    return handle->charge == 10;
}

static void walk(ferretgold_object_cache *cache, ferretgold_priority priority, bool useful) {
    ferretgold_object_place place = {0, 0};
    (void)useful;
    insert(cache, priority, false);
    EXPECT(ferretgold_object_walk(cache, &place, UINT64_MAX, visit, NULL), FERRETGOLD_MISS);
}

static bool is_meant(void *context, const ferretgold_key *key) {
    (void)context;
    return key->w0 != RACER;
}

static void erase_others(ferretgold_object_cache *cache, ferretgold_priority priority, bool useful) {
    (void)useful;
    insert(cache, priority, false);
    EXPECT(ferretgold_object_erase_where(cache, is_meant, NULL, NULL), FERRETGOLD_OK);
}

/* An insertion that meets the key is as many uses as its priority says. */
static void insert_again(ferretgold_object_cache *cache, ferretgold_priority priority, bool useful) {
    (void)useful;
    insert(cache, priority, false);
    insert(cache, priority, false);
}

static race_end race(void *context, const ferretgold_object_config *config, ferretgold_priority rival) {
    const way *it = context;
    ferretgold_object_cache *cache = NULL;
    EXPECT(ferretgold_object_open(config, delete_nothing, NULL, &cache), FERRETGOLD_OK);
    it->put(cache, it->priority, it->useful);
    const race_end is = raced(cache, rival);
    EXPECT(ferretgold_object_close(cache), FERRETGOLD_OK);
    return is;
}

void object_uses(void) {
    static way all[] = {
        {"inserted", insert, FERRETGOLD_HIGH, false, 3},
        {"inserted, low", insert, FERRETGOLD_LOW, false, 2},
        {"inserted, bottom", insert, FERRETGOLD_BOTTOM, false, 1},
        {"inserted cold", insert_cold, FERRETGOLD_LOW, false, 1},
        {"inserted cold, bottom", insert_cold, FERRETGOLD_BOTTOM, false, 0},
        {"held when inserted, no use", insert_pinned, FERRETGOLD_LOW, false, 1},
        {"held when inserted, used", insert_pinned, FERRETGOLD_LOW, true, 2},
        {"found, no use", look_up, FERRETGOLD_BOTTOM, false, 1},
        {"found, used", look_up, FERRETGOLD_BOTTOM, true, 2},
        {"held twice, no use", refer_twice, FERRETGOLD_BOTTOM, false, 1},
        {"held twice, used", refer_twice, FERRETGOLD_BOTTOM, true, 2},
        {"given back elsewhere, no use", release_elsewhere, FERRETGOLD_BOTTOM, false, 1},
        {"given back elsewhere, used", release_elsewhere, FERRETGOLD_BOTTOM, true, 2},
        {"found in its slot, no use", pin_each, FERRETGOLD_BOTTOM, false, 1},
        {"found in its slot, used", pin_each, FERRETGOLD_BOTTOM, true, 2},
        {"visited", walk, FERRETGOLD_BOTTOM, false, 1},
        {"passed over", erase_others, FERRETGOLD_BOTTOM, false, 1},
        {"inserted again", insert_again, FERRETGOLD_BOTTOM, false, 2},
    };
    for (size_t k = 0; k < sizeof all / sizeof *all; k++) {
        expect(__FILE__, __LINE__, all[k].name, uses_by(race, &all[k]), all[k].uses);
    }
}
