/* Walks over a cache of objects: what each call visits and where it stops, what is erased by them, and
 * walks while other threads insert and erase. */
#include "object_test.h"

#include <pthread.h>
#include <string.h>

enum { KEYS = 6, WRITERS = 4, STANDING = 20, WALKS = 100, PACE = 7, OTHERS = 400, FIRST_OTHER = 1000 };

/* ---- Rows ------------------------------------------------------------------------------------ */

static ferretgold_key key_of(uint64_t number) {
    return (ferretgold_key){number, 77};
}

static void *object_of(uint64_t number) {
    return (void *)(uintptr_t)(number * 16);
}

static void count(void *context, const ferretgold_key *key, void *object, uint16_t kind) {
    EXPECT(object == object_of(key->w0) && kind == 3, true);
    (void)atomic_fetch_add((atomic_ulong *)context, 1);
}

static void insert(ferretgold_object_cache *cache, uint64_t number) {
    const ferretgold_key key = key_of(number);
    (void)ferretgold_object_insert(cache, &key, object_of(number), 3, 1, FERRETGOLD_LOW, NULL);
}

static bool is_there(ferretgold_object_cache *cache, uint64_t number) {
    const ferretgold_key key = key_of(number);
    const ferretgold_object_handle *handle = NULL;
    if (ferretgold_object_lookup(cache, &key, &handle) != FERRETGOLD_OK) {
        return false;
    }
    EXPECT(ferretgold_object_release(cache, handle, false, false, NULL), FERRETGOLD_OK);
    return true;
}

/* A cache of two shards with as many entries as there are keys. */
static ferretgold_object_cache *filled(atomic_ulong *deleted) {
    ferretgold_object_config config = small_cache();
    ferretgold_object_cache *cache = NULL;
    config.shards = 2;
    EXPECT(ferretgold_object_open(&config, count, deleted, &cache), FERRETGOLD_OK);
    for (uint64_t number = 0; number < KEYS; number++) {
        insert(cache, number);
    }
    return cache;
}

/* How often each key was visited, and after how many visits a call ends. */
typedef struct visits {
    unsigned of[KEYS];
    unsigned all, most;
    bool resumes;
} visits;

static bool note(void *context, const ferretgold_object_handle *handle) {
    visits *it = context;
    EXPECT(handle->object == object_of(handle->key.w0) && handle->charge == 1, true);
    EXPECT(handle->key.w1 == 77 && handle->kind == 3, true);
    EXPECT(it->all == 0 || it->all % it->most != 0 || it->resumes, true); /* none behind the last one */
    it->resumes = false;
    it->of[handle->key.w0] += 1;
    it->all += 1;
    return it->all % it->most != 0;
}

/* Walks by so many slots a call, each of which ends behind so many visits. */
static void walk_by(ferretgold_object_cache *cache, uint64_t slots, unsigned most) {
    ferretgold_object_place place = {0, 0};
    visits it = {{0}, 0, most, false};
    ferretgold_status status;
    unsigned calls = 0;
    do {
        it.resumes = true;
        status = ferretgold_object_walk(cache, &place, slots, note, &it);
        calls += 1;
    } while (status == FERRETGOLD_OK && calls < 100);
    EXPECT(status, FERRETGOLD_MISS);
    EXPECT(place.shard == 2 && place.slot == 0, true);
    for (unsigned k = 0; k < KEYS; k++) {
        EXPECT(it.of[k], 1);
    }
    EXPECT(most == 1 ? calls >= KEYS : calls == (slots < 16 ? 16 / slots : 1), true);
    EXPECT(ferretgold_object_walk(cache, &place, slots, note, &it), FERRETGOLD_MISS);
    EXPECT(it.all, KEYS);
}

/* Where a client has no handle left a slot is refused, and looked at again. */
static void walk_refused(ferretgold_object_cache *cache) {
    const ferretgold_object_handle *held[4];
    ferretgold_object_place place = {0, 0};
    visits it = {{0}, 0, KEYS + 1, false};
    uint64_t hidden = 9;
    for (uint64_t number = 0; number < 4; number++) {
        const ferretgold_key key = key_of(number);
        EXPECT(ferretgold_object_lookup(cache, &key, &held[number]), FERRETGOLD_OK);
    }
    EXPECT(ferretgold_object_walk(cache, &place, 100, note, &it), FERRETGOLD_HANDLES_FULL);
    EXPECT(place.shard == 0 && place.slot == 0 && it.all == 0, true);
    EXPECT(ferretgold_object_erase_where(cache, NULL, NULL, &hidden), FERRETGOLD_HANDLES_FULL);
    EXPECT(hidden, 0);
    for (int k = 0; k < 4; k++) {
        EXPECT(ferretgold_object_release(cache, held[k], false, false, NULL), FERRETGOLD_OK);
    }
    EXPECT(ferretgold_object_walk(cache, &place, 100, note, &it), FERRETGOLD_MISS);
    EXPECT(it.all, KEYS);
}

static bool is_even(void *context, const ferretgold_key *key) {
    *(unsigned *)context += 1;
    return key->w0 % 2 == 0;
}

/* What is meant is gone, but for what is held; and then all. */
static void erase_meant(ferretgold_object_cache *cache, atomic_ulong *deleted) {
    const ferretgold_object_handle *held = NULL;
    const ferretgold_key key = key_of(2);
    unsigned asked = 0;
    uint64_t hidden = 9;
    EXPECT(ferretgold_object_lookup(cache, &key, &held), FERRETGOLD_OK);
    EXPECT(ferretgold_object_erase_where(cache, is_even, &asked, &hidden), FERRETGOLD_OK);
    EXPECT(asked, KEYS);
    EXPECT(hidden, KEYS / 2);
    EXPECT(atomic_load(deleted), KEYS / 2 - 1);
    for (uint64_t number = 0; number < KEYS; number++) {
        EXPECT(is_there(cache, number), number % 2 == 1);
    }
    EXPECT(ferretgold_object_release(cache, held, false, false, NULL), FERRETGOLD_OK);
    EXPECT(atomic_load(deleted), KEYS / 2);
    EXPECT(ferretgold_object_erase_where(cache, NULL, NULL, NULL), FERRETGOLD_OK);
    EXPECT(atomic_load(deleted), KEYS);
}

/* What hears of entries while others see what it does. */
typedef struct listener {
    ferretgold_object_cache *cache;
    atomic_ulong *deleted;
    unsigned heard;
} listener;

/* Erases each entry that is visited: it stays until then, and the deleters of those before have run. */
static bool erase_visited(void *context, const ferretgold_object_handle *handle) {
    listener *it = context;
    uint32_t hidden = 9;
    EXPECT(atomic_load(it->deleted), it->heard);
    EXPECT(ferretgold_object_erase(it->cache, &handle->key, &hidden), FERRETGOLD_OK);
    EXPECT(hidden, 1);
    EXPECT(atomic_load(it->deleted), it->heard);
    EXPECT(handle->object == object_of(handle->key.w0), true);
    it->heard += 1;
    return true;
}

/* Is asked before the entry is hidden, and once all before are gone. */
static bool is_there_still(void *context, const ferretgold_key *key) {
    listener *it = context;
    EXPECT(key->w1, 77);
    EXPECT(is_there(it->cache, key->w0), true);
    EXPECT(atomic_load(it->deleted), it->heard);
    it->heard += 1;
    return true;
}

static void hears(void) {
    atomic_ulong deleted = 0;
    listener it = {filled(&deleted), &deleted, 0};
    ferretgold_object_place place = {0, 0};
    uint64_t hidden = 9;
    EXPECT(ferretgold_object_walk(it.cache, &place, UINT64_MAX, erase_visited, &it), FERRETGOLD_MISS);
    EXPECT(it.heard == KEYS && atomic_load(&deleted) == KEYS, true);
    for (uint64_t number = 0; number < KEYS; number++) {
        insert(it.cache, number);
    }
    atomic_store(&deleted, 0);
    it.heard = 0;
    EXPECT(ferretgold_object_erase_where(it.cache, is_there_still, &it, &hidden), FERRETGOLD_OK);
    EXPECT(it.heard == KEYS && atomic_load(&deleted) == KEYS && hidden == KEYS, true);
    EXPECT(ferretgold_object_close(it.cache), FERRETGOLD_OK);
    EXPECT(atomic_load(&deleted), KEYS);
}

static void rows(void) {
    static const struct {
        uint64_t slots;
        unsigned most;
    } ALL[] = {{1, KEYS + 1}, {4, KEYS + 1}, {8, KEYS + 1}, {16, KEYS + 1}, {UINT64_MAX, KEYS + 1}, {100, 1}};
    atomic_ulong deleted = 0;
    ferretgold_object_cache *cache = filled(&deleted);
    ferretgold_object_place place = {0, 8}; /* no such slot */
    visits it = {{0}, 0, 1, false};
    for (size_t k = 0; k < sizeof ALL / sizeof *ALL; k++) {
        walk_by(cache, ALL[k].slots, ALL[k].most);
    }
    EXPECT(ferretgold_object_walk(cache, &place, 1, note, &it), FERRETGOLD_MISS);
    place = (ferretgold_object_place){1, 3};
    EXPECT(ferretgold_object_walk(cache, &place, 0, note, &it), FERRETGOLD_OK);
    EXPECT(place.shard == 1 && place.slot == 3 && it.all == 0, true);
    EXPECT(ferretgold_object_walk(NULL, &place, 1, note, &it), FERRETGOLD_NULL);
    EXPECT(ferretgold_object_walk(cache, NULL, 1, note, &it), FERRETGOLD_NULL);
    EXPECT(ferretgold_object_walk(cache, &place, 1, NULL, &it), FERRETGOLD_NULL);
    EXPECT(ferretgold_object_erase_where(NULL, NULL, NULL, NULL), FERRETGOLD_NULL);
    walk_refused(cache);
    erase_meant(cache, &deleted);
    EXPECT(ferretgold_object_close(cache), FERRETGOLD_OK);
    EXPECT(atomic_load(&deleted), KEYS);
}

/* ---- Threads --------------------------------------------------------------------------------- */

typedef struct writer {
    ferretgold_object_cache *cache;
    atomic_bool *ends;
    pthread_t thread;
    uint64_t draw;
} writer;

/* Inserts and erases entries that nobody holds. */
static void *write_others(void *argument) {
    writer *it = argument;
    while (!atomic_load(it->ends)) {
        it->draw = it->draw * UINT64_C(6364136223846793005) + 1442695040888963407;
        const uint64_t number = FIRST_OTHER + (it->draw >> 33) % OTHERS;
        const ferretgold_key key = key_of(number);
        if ((it->draw >> 60) < 4) {
            (void)ferretgold_object_erase(it->cache, &key, NULL);
        } else {
            insert(it->cache, number);
        }
    }
    return NULL;
}

static bool count_standing(void *context, const ferretgold_object_handle *handle) {
    unsigned *times = context;
    EXPECT(handle->object == object_of(handle->key.w0), true);
    if (handle->key.w0 < STANDING) {
        times[handle->key.w0] += 1;
    }
    return true;
}

/* Whoever stands all through a walk is visited once. */
static void walk_over(ferretgold_object_cache *cache) {
    unsigned times[STANDING] = {0};
    ferretgold_object_place place = {0, 0};
    ferretgold_status status;
    do {
        status = ferretgold_object_walk(cache, &place, PACE, count_standing, times);
    } while (status == FERRETGOLD_OK);
    EXPECT(status, FERRETGOLD_MISS);
    for (int k = 0; k < STANDING; k++) {
        EXPECT(times[k], 1);
    }
}

static bool is_other(void *context, const ferretgold_key *key) {
    (void)context;
    return key->w0 >= FIRST_OTHER;
}

void object_walks(void) {
    atomic_ulong deleted = 0;
    atomic_bool ends = false;
    writer writers[WRITERS];
    const ferretgold_object_handle *held[STANDING];
    ferretgold_object_config config = small_cache();
    ferretgold_object_cache *cache = NULL;
    config.slots = 64;
    config.shards = 2;
    config.capacity = 90;
    config.clients = WRITERS + 1;
    config.handles = STANDING + 1;
    rows();
    hears();
    EXPECT(ferretgold_object_open(&config, count, &deleted, &cache), FERRETGOLD_OK);
    for (uint64_t number = 0; number < STANDING; number++) {
        const ferretgold_key key = key_of(number);
        EXPECT(ferretgold_object_insert_pinned(cache, &key, object_of(number), 3, 1, FERRETGOLD_LOW, NULL,
                                               &held[number]),
               FERRETGOLD_OK);
    }
    for (int k = 0; k < WRITERS; k++) {
        writers[k] = (writer){cache, &ends, 0, (uint64_t)k};
        EXPECT(pthread_create(&writers[k].thread, NULL, write_others, &writers[k]), 0);
    }
    for (int k = 0; k < WALKS; k++) {
        walk_over(cache);
        EXPECT(ferretgold_object_erase_where(cache, is_other, NULL, NULL), FERRETGOLD_OK);
    }
    atomic_store(&ends, true);
    for (int k = 0; k < WRITERS; k++) {
        EXPECT(pthread_join(writers[k].thread, NULL), 0);
    }
    for (int k = 0; k < STANDING; k++) {
        EXPECT(is_there(cache, (uint64_t)k), true);
        EXPECT(ferretgold_object_release(cache, held[k], false, false, NULL), FERRETGOLD_OK);
    }
    EXPECT(ferretgold_object_close(cache), FERRETGOLD_OK);
}
