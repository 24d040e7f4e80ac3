/* The calls of ferretgold_object.h on one thread: answers and refusals, whose the object is after
 * each, when deleters run and what they may do. tests/c/object_opening.c has configurations and the
 * memory of a cache, object_seeds.c seeds, object_bytes.c bytes, object_order.c two refusals at once,
 * object_uses.c uses, object_threads.c what several threads do. Linked with heap.c.
 * Usage: object [OPERATIONS]          of eight threads: 1,000,000 at most and by default
 *        object threads OPERATIONS    these alone
 *        object owned                 ends by the checking library's line */
#include "object_test.h"

#include <stdlib.h>
#include <string.h>

enum { MOST_LOGGED = 64, CHAIN = 1000000 };

atomic_ulong object_faults = 0;

void expect(const char *file, int line, const char *what, long long is, long long wanted) {
    if (is != wanted) {
        printf("%s, line %d: %s is %lld and not %lld\n", file, line, what, is, wanted);
        atomic_fetch_add(&object_faults, 1);
    }
}

ferretgold_object_config small_cache(void) {
    ferretgold_object_config it = {0};
    it.slots = 8;
    it.clients = 1;
    it.handles = 4;
    it.gone = 4;
    it.shards = 1;
    it.capacity = 100;
    it.serials = FERRETGOLD_MOST_SERIALS;
    it.seed = 7;
    return it;
}

/* Notes what it is given. */
typedef struct journal {
    unsigned count;
    struct {
        ferretgold_key key;
        void *object;
        uint16_t kind;
    } deleted[MOST_LOGGED];
} journal;

static void note(void *context, const ferretgold_key *key, void *object, uint16_t kind) {
    journal *it = context;
    if (it->count < MOST_LOGGED) {
        it->deleted[it->count].key = *key;
        it->deleted[it->count].object = object;
        it->deleted[it->count].kind = kind;
    }
    it->count += 1;
}

static ferretgold_object_cache *opened(const ferretgold_object_config *config,
                                       ferretgold_deleter deleter, void *context) {
    ferretgold_object_cache *cache = NULL;
    EXPECT(ferretgold_object_open(config, deleter, context, &cache), FERRETGOLD_OK);
    return cache;
}

static ferretgold_key key_of(uint64_t number) {
    return (ferretgold_key){number, 5};
}

static int insert(ferretgold_object_cache *cache, uint64_t number, void *object, uint32_t charge) {
    const ferretgold_key key = key_of(number);
    ferretgold_inserted inserted = 9;
    const ferretgold_status status =
        ferretgold_object_insert(cache, &key, object, 3, charge, FERRETGOLD_LOW, &inserted);
    return status == FERRETGOLD_OK ? (int)inserted : (int)status;
}

/* The same with a handle that is given back at once, as no use. */
static int insert_unused(ferretgold_object_cache *cache, uint64_t number, void *object,
                         uint32_t charge, ferretgold_priority priority) {
    const ferretgold_key key = key_of(number);
    ferretgold_inserted inserted = 9;
    const ferretgold_status status = ferretgold_object_insert_pinned(
        cache, &key, object, 3, charge, priority, &inserted, NULL);
    return status == FERRETGOLD_OK ? (int)inserted : (int)status;
}

static int erase(ferretgold_object_cache *cache, uint64_t number) {
    const ferretgold_key key = key_of(number);
    uint32_t hidden = 9;
    const ferretgold_status status = ferretgold_object_erase(cache, &key, &hidden);
    return status == FERRETGOLD_OK ? (int)hidden : (int)status;
}

static const ferretgold_object_handle *held(ferretgold_object_cache *cache, uint64_t number) {
    const ferretgold_key key = key_of(number);
    const ferretgold_object_handle *handle = NULL;
    EXPECT(ferretgold_object_lookup(cache, &key, &handle), FERRETGOLD_OK);
    return handle;
}

static bool released(ferretgold_object_cache *cache, const ferretgold_object_handle *handle) {
    bool freed = false;
    EXPECT(ferretgold_object_release(cache, handle, true, false, &freed), FERRETGOLD_OK);
    return freed;
}

/* ---- Answers --------------------------------------------------------------------------------- */

/* The life of an entry: what a handle shows, and when the deleter gets the object. */
static void life(void) {
    journal log = {0};
    const ferretgold_object_config config = small_cache();
    ferretgold_object_cache *cache = opened(&config, note, &log);
    int block = 0;
    EXPECT(insert(cache, 1, &block, 10), FERRETGOLD_PLACED);
    const ferretgold_object_handle *handle = held(cache, 1);
    EXPECT(handle->object == &block && handle->kind == 3 && handle->charge == 10, true);
    EXPECT(handle->key.w0 == 1 && handle->key.w1 == 5, true);
    EXPECT(ferretgold_object_ref(cache, handle), FERRETGOLD_OK);
    EXPECT(erase(cache, 1), 1);
    EXPECT(erase(cache, 1), 0);
    EXPECT(released(cache, handle), false);
    EXPECT(log.count, 0);
    EXPECT(released(cache, handle), true);
    EXPECT(log.count, 1);
    EXPECT(log.deleted[0].object == &block && log.deleted[0].kind == 3, true);
    EXPECT(log.deleted[0].key.w0 == 1 && log.deleted[0].key.w1 == 5, true);
    EXPECT(ferretgold_object_release(cache, handle, true, false, NULL), FERRETGOLD_NO_HANDLE);
    EXPECT(ferretgold_object_ref(cache, handle), FERRETGOLD_NO_HANDLE);
    EXPECT(ferretgold_object_close(cache), FERRETGOLD_OK);
    EXPECT(log.count, 1);
}

/* Of one object under two keys, and of null, each insertion is handed back. */
static void twice(void) {
    journal log = {0};
    const ferretgold_object_config config = small_cache();
    ferretgold_object_cache *cache = opened(&config, note, &log);
    int block = 0;
    EXPECT(ferretgold_object_owns(cache, 4), FERRETGOLD_OK); /* of another kind */
    EXPECT(insert(cache, 1, &block, 10), FERRETGOLD_PLACED);
    EXPECT(insert(cache, 2, &block, 10), FERRETGOLD_PLACED);
    EXPECT(insert(cache, 3, NULL, 10), FERRETGOLD_PLACED);
    EXPECT(insert(cache, 4, (void *)(uintptr_t)0xffffffffffff, 10), FERRETGOLD_PLACED);
    EXPECT(insert(cache, 4, &block, 10), FERRETGOLD_DROPPED);
    EXPECT(log.count, 0);
    EXPECT(erase(cache, 1), 1);
    EXPECT(log.count == 1 && log.deleted[0].object == &block, true);
    EXPECT(erase(cache, 3), 1);
    EXPECT(log.count == 2 && log.deleted[1].object == NULL, true);
    EXPECT(ferretgold_object_close(cache), FERRETGOLD_OK);
    EXPECT(log.count, 4);
    EXPECT((log.deleted[2].object == &block) + (log.deleted[3].object == &block), 1);
}

/* An object that stands alone goes with its handle. */
static void alone(void) {
    journal log = {0};
    const ferretgold_object_config config = small_cache();
    ferretgold_object_cache *cache = opened(&config, note, &log);
    const ferretgold_key key = key_of(1);
    const ferretgold_object_handle *first = NULL, *second = NULL;
    ferretgold_inserted inserted = 9;
    int block = 0;
    EXPECT(ferretgold_object_insert_pinned(cache, &key, NULL, 1, 20, FERRETGOLD_HIGH, &inserted,
                                           &first), FERRETGOLD_OK);
    EXPECT(inserted, FERRETGOLD_PLACED);
    EXPECT(ferretgold_object_insert_pinned(cache, &key, &block, 2, 30, FERRETGOLD_HIGH, &inserted,
                                           &second), FERRETGOLD_OK);
    EXPECT(inserted, FERRETGOLD_STANDALONE);
    EXPECT(second->object == &block && second->kind == 2 && second->charge == 30, true);
    EXPECT(ferretgold_object_close(cache), FERRETGOLD_HANDLES_OUT);
    EXPECT(released(cache, second), true);
    EXPECT(log.count == 1 && log.deleted[0].object == &block && log.deleted[0].kind == 2, true);
    EXPECT(ferretgold_object_release(cache, first, false, true, NULL), FERRETGOLD_OK);
    EXPECT(log.count == 2 && log.deleted[1].object == NULL && log.deleted[1].kind == 1, true);
    EXPECT(ferretgold_object_close(cache), FERRETGOLD_OK);
    EXPECT(log.count, 2);
}

/* An insertion that wants no handle is one whose handle is given back as no use: to the deleters of
 * two caches the same objects come in the same order. */
static void unused(void) {
    journal logs[2] = {{0}};
    ferretgold_object_cache *caches[2] = {NULL};
    ferretgold_object_config config = small_cache();
    config.slots = 32;
    config.capacity = 12;
    for (unsigned n = 0; n < 2; n++) {
        caches[n] = opened(&config, note, &logs[n]);
    }
    for (uint64_t k = 0; k < 60; k++) {
        const ferretgold_key key = key_of(k), older = key_of(k / 2);
        const ferretgold_priority priority = (ferretgold_priority)(k % 3);
        const ferretgold_object_handle *handle = NULL;
        EXPECT(insert_unused(caches[0], k, &logs[k % 2], 1, priority), FERRETGOLD_PLACED);
        EXPECT(ferretgold_object_insert_pinned(caches[1], &key, &logs[k % 2], 3, 1, priority, NULL,
                                               &handle), FERRETGOLD_OK);
        EXPECT(ferretgold_object_release(caches[1], handle, false, false, NULL), FERRETGOLD_OK);
        for (unsigned n = 0; n < 2; n++) {
            if (ferretgold_object_lookup(caches[n], &older, &handle) == FERRETGOLD_OK) {
                (void)released(caches[n], handle);
            }
        }
    }
    EXPECT(logs[0].count >= 48, true);
    EXPECT(memcmp(&logs[0], &logs[1], sizeof logs[0]), 0);
    for (unsigned n = 0; n < 2; n++) {
        EXPECT(ferretgold_object_close(caches[n]), FERRETGOLD_OK);
    }
}

/* Where it would stand alone it stays the caller's. */
static void unused_and_dropped(void) {
    journal log = {0};
    const ferretgold_object_config config = small_cache();
    ferretgold_object_cache *cache = opened(&config, note, &log);
    int block = 0;
    EXPECT(insert_unused(cache, 1, &log, 10, FERRETGOLD_LOW), FERRETGOLD_PLACED);
    EXPECT(insert_unused(cache, 1, &block, 10, FERRETGOLD_LOW), FERRETGOLD_DROPPED);
    EXPECT(log.count, 0);
    EXPECT(erase(cache, 1), 1);
    EXPECT(log.count == 1 && log.deleted[0].object == &log, true);
    EXPECT(ferretgold_object_close(cache), FERRETGOLD_OK);
    EXPECT(log.count, 1);
}

/* Calls that return a handle, or whether an entry was freed or an object is placed. */
static void without_status(void) {
    journal log = {0};
    const ferretgold_object_config config = small_cache();
    ferretgold_object_cache *cache = opened(&config, note, &log);
    ferretgold_object_cache *other = opened(&config, note, &log);
    const ferretgold_object_handle *handles[4] = {NULL};
    int block = 0;
    EXPECT(ferretgold_object_find(cache, key_of(1)) == NULL, true);
    EXPECT(insert(cache, 1, &block, 10), FERRETGOLD_PLACED);
    EXPECT(ferretgold_object_find(other, key_of(1)) == NULL, true);
    for (unsigned k = 0; k < 4; k++) {
        handles[k] = ferretgold_object_find(cache, key_of(1));
        EXPECT(handles[k] != NULL && handles[k]->object == &block && handles[k]->kind == 3, true);
        EXPECT(handles[k]->key.w0 == 1 && handles[k]->charge == 10, true);
    }
    EXPECT(ferretgold_object_find(cache, key_of(1)) == NULL, true); /* no handle is left */
    EXPECT(ferretgold_object_give_back(other, handles[0], false, true), false);
    for (unsigned k = 0; k < 4; k++) {
        EXPECT(ferretgold_object_give_back(cache, handles[k], k == 3, k < 3), false);
    }
    EXPECT(ferretgold_object_give_back(cache, handles[3], true, true), false); /* it was */
    EXPECT(log.count, 0);
    handles[0] = ferretgold_object_find(cache, key_of(1));
    EXPECT(ferretgold_object_give_back(cache, handles[0], false, true), true);
    EXPECT(log.count == 1 && log.deleted[0].object == &block, true);
    EXPECT(ferretgold_object_find(cache, key_of(1)) == NULL, true);
    const ferretgold_key key = key_of(2);
    EXPECT(ferretgold_object_put(cache, &key, &block, 3, 0, FERRETGOLD_LOW), false);
    EXPECT(ferretgold_object_put(cache, &key, &block, 3, 10, FERRETGOLD_LOW), true);
    EXPECT(ferretgold_object_put(cache, &key, &log, 3, 10, FERRETGOLD_LOW), false);
    EXPECT(log.count, 1);
    EXPECT(ferretgold_object_close(other), FERRETGOLD_OK);
    EXPECT(ferretgold_object_close(cache), FERRETGOLD_OK);
    EXPECT(log.count == 2 && log.deleted[1].object == &block, true);
}

/* A walk holds what is there. */
static void walk(void) {
    journal log = {0};
    const ferretgold_object_config config = small_cache();
    ferretgold_object_cache *cache = opened(&config, note, &log);
    const ferretgold_object_handle *handle = NULL;
    char blocks[4];
    unsigned seen = 0;
    for (unsigned k = 0; k < 4; k++) {
        EXPECT(insert(cache, k, &blocks[k], k + 1), FERRETGOLD_PLACED);
    }
    for (uint32_t slot = 0; slot <= config.slots; slot++) {
        const ferretgold_status status = ferretgold_object_pin_at(cache, 0, slot, &handle);
        EXPECT(status == FERRETGOLD_OK || status == FERRETGOLD_MISS, true);
        if (status == FERRETGOLD_OK) {
            EXPECT(handle->object == &blocks[handle->key.w0], true);
            EXPECT(handle->charge, handle->key.w0 + 1);
            seen += 1u << handle->key.w0;
            EXPECT(ferretgold_object_release(cache, handle, false, true, NULL), FERRETGOLD_OK);
        }
    }
    EXPECT(ferretgold_object_pin_at(cache, 1, 0, &handle), FERRETGOLD_MISS);
    EXPECT(seen, 15);
    EXPECT(log.count, 4);
    EXPECT(ferretgold_object_close(cache), FERRETGOLD_OK);
}

/* What is charged, what of that is held or stands alone, and how many entries there are. */
static void expect_totals(ferretgold_object_cache *cache, uint64_t usage, uint64_t pinned,
                          uint64_t occupancy) {
    uint64_t is[3] = {99, 99, 99};
    EXPECT(ferretgold_object_usage(cache, &is[0]), FERRETGOLD_OK);
    EXPECT(ferretgold_object_pinned_usage(cache, &is[1]), FERRETGOLD_OK);
    EXPECT(ferretgold_object_occupancy(cache, &is[2]), FERRETGOLD_OK);
    EXPECT(is[0], usage);
    EXPECT(is[1], pinned);
    EXPECT(is[2], occupancy);
}

static void totals(void) {
    journal log = {0};
    ferretgold_object_config config = small_cache();
    config.shards = 2;
    ferretgold_object_cache *cache = opened(&config, note, &log);
    const ferretgold_key key = key_of(1);
    const ferretgold_object_handle *alone = NULL;
    expect_totals(cache, 0, 0, 0);
    for (unsigned k = 0; k < 3; k++) {
        EXPECT(insert(cache, k, NULL, 5 + k), FERRETGOLD_PLACED);
    }
    const ferretgold_object_handle *handle = held(cache, 1);
    expect_totals(cache, 18, 6, 3);
    EXPECT(ferretgold_object_insert_pinned(cache, &key, NULL, 1, 9, FERRETGOLD_LOW, NULL, &alone),
           FERRETGOLD_OK);
    EXPECT(erase(cache, 1), 1);
    expect_totals(cache, 27, 15, 3);
    EXPECT(released(cache, handle), true);
    expect_totals(cache, 21, 9, 2);
    EXPECT(released(cache, alone), true);
    expect_totals(cache, 12, 0, 2);
    EXPECT(ferretgold_object_close(cache), FERRETGOLD_OK);
}

/* ---- Refusals -------------------------------------------------------------------------------- */

/* Each insertion's arguments, and what refuses them, in this order. */
static const struct {
    int priority;
    uint32_t charge;
    uint64_t address;
    int status;
} REFUSED[] = {
    {3, 0, UINT64_C(1) << 48, FERRETGOLD_BAD_PRIORITY},
    {2, 0, UINT64_C(1) << 48, FERRETGOLD_NO_CHARGE},
    {2, 200, UINT64_C(1) << 48, FERRETGOLD_TOO_HIGH},
    {2, 200, UINT64_MAX, FERRETGOLD_TOO_HIGH},
    {2, 200, (UINT64_C(1) << 48) - 1, FERRETGOLD_TOO_LARGE},
};

static void bad_arguments(void) {
    journal log = {0};
    ferretgold_object_config config = small_cache();
    config.strict = true;
    ferretgold_object_cache *cache = opened(&config, note, &log);
    const ferretgold_key key = key_of(1);
    const ferretgold_object_handle *handle = NULL;
    ferretgold_inserted inserted = 9;
    for (size_t k = 0; k < sizeof REFUSED / sizeof *REFUSED; k++) {
        void *object = (void *)(uintptr_t)REFUSED[k].address;
        const ferretgold_priority priority = (ferretgold_priority)REFUSED[k].priority;
        EXPECT(ferretgold_object_insert(cache, &key, object, 1, REFUSED[k].charge, priority,
                                        &inserted), REFUSED[k].status);
        EXPECT(ferretgold_object_insert_pinned(cache, &key, object, 1, REFUSED[k].charge, priority,
                                               &inserted, &handle), REFUSED[k].status);
        EXPECT(ferretgold_object_insert_pinned(cache, &key, object, 1, REFUSED[k].charge, priority,
                                               &inserted, NULL), REFUSED[k].status);
    }
    EXPECT(inserted == 9 && handle == NULL, true);
    EXPECT(ferretgold_object_lookup(cache, &key, &handle), FERRETGOLD_MISS);
    EXPECT(ferretgold_object_close(cache), FERRETGOLD_OK);
    EXPECT(log.count, 0);
}

static void null_pointers(void) {
    journal log = {0};
    const ferretgold_object_config config = small_cache();
    ferretgold_object_cache *cache = opened(&config, note, &log), *none = NULL;
    const ferretgold_key key = key_of(1);
    const ferretgold_object_handle *handle = NULL;
    EXPECT(ferretgold_object_open(NULL, note, NULL, &none), FERRETGOLD_NULL);
    EXPECT(ferretgold_object_open(&config, NULL, NULL, &none), FERRETGOLD_NULL);
    EXPECT(ferretgold_object_open(&config, note, NULL, NULL), FERRETGOLD_NULL);
    EXPECT(ferretgold_object_config_check(NULL), FERRETGOLD_NULL);
    EXPECT(ferretgold_object_config_of(cache, NULL), FERRETGOLD_NULL);
    EXPECT(ferretgold_object_close(NULL), FERRETGOLD_NULL);
    EXPECT(ferretgold_object_collect(NULL), FERRETGOLD_NULL);
    EXPECT(ferretgold_object_owns(NULL, 1), FERRETGOLD_NULL);
    EXPECT(ferretgold_object_lookup(NULL, &key, &handle), FERRETGOLD_NULL);
    EXPECT(ferretgold_object_lookup(cache, NULL, &handle), FERRETGOLD_NULL);
    EXPECT(ferretgold_object_lookup(cache, &key, NULL), FERRETGOLD_NULL);
    EXPECT(ferretgold_object_pin_at(NULL, 0, 0, &handle), FERRETGOLD_NULL);
    EXPECT(ferretgold_object_pin_at(cache, 0, 0, NULL), FERRETGOLD_NULL);
    EXPECT(ferretgold_object_ref(cache, NULL), FERRETGOLD_NULL);
    EXPECT(ferretgold_object_release(cache, NULL, false, false, NULL), FERRETGOLD_NULL);
    EXPECT(ferretgold_object_insert(cache, NULL, NULL, 1, 0, 0, NULL), FERRETGOLD_NULL);
    EXPECT(ferretgold_object_insert(NULL, &key, NULL, 1, 0, 0, NULL), FERRETGOLD_NULL);
    EXPECT(ferretgold_object_insert_pinned(cache, NULL, NULL, 1, 0, 0, NULL, &handle),
           FERRETGOLD_NULL);
    EXPECT(ferretgold_object_insert_pinned(NULL, &key, NULL, 1, 0, 0, NULL, &handle),
           FERRETGOLD_NULL);
    EXPECT(ferretgold_object_erase(cache, NULL, NULL), FERRETGOLD_NULL);
    EXPECT(ferretgold_object_usage(cache, NULL), FERRETGOLD_NULL);
    EXPECT(ferretgold_object_pinned_usage(cache, NULL), FERRETGOLD_NULL);
    EXPECT(ferretgold_object_occupancy(NULL, &(uint64_t){0}), FERRETGOLD_NULL);
    EXPECT(ferretgold_object_memory(NULL), 0);
    EXPECT(ferretgold_object_close(cache), FERRETGOLD_OK);
}

/* A refused insertion runs the deleters of what was evicted for it, and not that of its object. */
static void refused_after_evictions(void) {
    journal log = {0};
    ferretgold_object_config config = small_cache();
    config.gone = 16; /* the list isn't full, and nothing tried again */
    config.strict = true;
    ferretgold_object_cache *cache = opened(&config, note, &log);
    char blocks[4];
    for (unsigned k = 0; k < 3; k++) {
        EXPECT(insert(cache, k, &blocks[k], 30), FERRETGOLD_PLACED);
    }
    const ferretgold_object_handle *handle = held(cache, 0);
    EXPECT(insert(cache, 3, &blocks[3], 90), FERRETGOLD_CAPACITY_FULL);
    EXPECT(log.count, 2);
    for (unsigned k = 0; k < 2; k++) {
        EXPECT(log.deleted[k].object == &blocks[log.deleted[k].key.w0], true);
    }
    EXPECT(log.deleted[0].key.w0 + log.deleted[1].key.w0, 3);
    (void)released(cache, handle);
    EXPECT(ferretgold_object_close(cache), FERRETGOLD_OK);
    EXPECT(log.count, 3);
}

/* Handles of several clients: a client that has no more of them is changed for another. */
static void many_handles(void) {
    journal log = {0};
    ferretgold_object_config config = small_cache();
    config.clients = 3;
    ferretgold_object_cache *cache = opened(&config, note, &log);
    const ferretgold_key key = key_of(1);
    const ferretgold_object_handle *handles[13] = {NULL};
    int block = 0;
    EXPECT(insert(cache, 1, &block, 10), FERRETGOLD_PLACED);
    for (unsigned k = 0; k < 12; k++) {
        if (k % 4 == 0) {
            EXPECT(insert_unused(cache, 2 + k, NULL, 5, FERRETGOLD_LOW), FERRETGOLD_PLACED);
        }
        handles[k] = held(cache, 1);
    }
    EXPECT(ferretgold_object_lookup(cache, &key, &handles[12]), FERRETGOLD_HANDLES_FULL);
    EXPECT(insert_unused(cache, 3, &block, 10, FERRETGOLD_LOW), FERRETGOLD_HANDLES_FULL);
    EXPECT(ferretgold_object_close(cache), FERRETGOLD_HANDLES_OUT);
    for (unsigned k = 0; k < 12; k += 2) {
        (void)released(cache, handles[k]);
    }
    for (unsigned k = 0; k < 12; k += 2) {
        handles[k] = held(cache, 1);
    }
    for (unsigned k = 0; k < 12; k++) {
        (void)released(cache, handles[k]);
    }
    EXPECT(ferretgold_object_close(cache), FERRETGOLD_OK);
    EXPECT(log.count, 4);
}

/* So is one that used all its serials: an insertion and a look-up use one. */
static void many_serials(void) {
    journal log = {0};
    ferretgold_object_config config = small_cache();
    config.clients = 3;
    config.serials = 2;
    ferretgold_object_cache *cache = opened(&config, note, &log);
    const ferretgold_key key = key_of(1);
    const ferretgold_object_handle *handle = NULL;
    int block = 0;
    EXPECT(insert(cache, 1, &block, 10), FERRETGOLD_PLACED);
    for (unsigned k = 0; k < 5; k++) {
        (void)released(cache, held(cache, 1));
    }
    EXPECT(ferretgold_object_lookup(cache, &key, &handle), FERRETGOLD_SPENT);
    EXPECT(insert(cache, 2, &block, 10), FERRETGOLD_SPENT);
    EXPECT(ferretgold_object_close(cache), FERRETGOLD_OK);
    EXPECT(log.count, 1);
}

/* An insertion that needs more room than the list has places is tried again. */
static void long_evictions(void) {
    journal log = {0};
    ferretgold_object_config config = small_cache();
    config.slots = 32;
    config.gone = 8;
    config.strict = true;
    ferretgold_object_cache *cache = opened(&config, note, &log);
    const ferretgold_key key = key_of(50);
    const ferretgold_object_handle *handle = NULL;
    ferretgold_inserted inserted = 9;
    for (unsigned k = 0; k < 10; k++) {
        EXPECT(insert(cache, k, NULL, 10), FERRETGOLD_PLACED);
    }
    EXPECT(ferretgold_object_insert_pinned(cache, &key, NULL, 1, 90, FERRETGOLD_LOW, &inserted,
                                           &handle), FERRETGOLD_OK);
    EXPECT(inserted, FERRETGOLD_PLACED);
    EXPECT(log.count, 9);
    (void)released(cache, handle);
    EXPECT(insert(cache, 51, NULL, 100), FERRETGOLD_PLACED);
    EXPECT(log.count, 11);
    EXPECT(erase(cache, 51), 1);
    for (unsigned k = 0; k < 10; k++) {
        EXPECT(insert(cache, k, NULL, 10), FERRETGOLD_PLACED);
    }
    EXPECT(insert_unused(cache, 52, NULL, 90, FERRETGOLD_HIGH), FERRETGOLD_PLACED);
    EXPECT(log.count, 21);
    EXPECT(ferretgold_object_close(cache), FERRETGOLD_OK);
    EXPECT(log.count, 23);
}

/* A handle of another cache, of the same client and index there, is none. */
static void others_handles(void) {
    journal log = {0};
    const ferretgold_object_config config = small_cache();
    ferretgold_object_cache *caches[2] = {NULL};
    const ferretgold_object_handle *handles[2] = {NULL};
    bool freed = true;
    for (unsigned n = 0; n < 2; n++) {
        caches[n] = opened(&config, note, &log);
        EXPECT(insert(caches[n], 1, NULL, 10), FERRETGOLD_PLACED);
        handles[n] = held(caches[n], 1);
    }
    for (unsigned n = 0; n < 2; n++) {
        EXPECT(ferretgold_object_ref(caches[n], handles[1 - n]), FERRETGOLD_NO_HANDLE);
        EXPECT(ferretgold_object_release(caches[n], handles[1 - n], true, true, &freed),
               FERRETGOLD_NO_HANDLE);
    }
    EXPECT(freed, true);
    for (unsigned n = 0; n < 2; n++) {
        EXPECT(released(caches[n], handles[n]), false);
        EXPECT(ferretgold_object_close(caches[n]), FERRETGOLD_OK);
    }
}

/* ---- Deleters that call the cache ------------------------------------------------------------ */

typedef struct chain {
    ferretgold_object_cache *cache;
    unsigned long deleted, running;
    uintptr_t lowest, highest;
} chain;

/* Puts the next object in and erases it, so that its deleter is due. */
static void delete_next(void *context, const ferretgold_key *key, void *object, uint16_t kind) {
    chain *it = context;
    const uintptr_t here = (uintptr_t)__builtin_frame_address(0);
    (void)kind, (void)object;
    EXPECT(it->running, 0);
    EXPECT(key->w0, it->deleted);
    it->running += 1;
    it->lowest = here < it->lowest ? here : it->lowest;
    it->highest = here > it->highest ? here : it->highest;
    it->deleted += 1;
    if (it->deleted < CHAIN) {
        (void)insert(it->cache, it->deleted, object, 1);
        (void)erase(it->cache, it->deleted);
    }
    it->running -= 1;
}

static void long_chain(void) {
    chain it = {NULL, 0, 0, UINTPTR_MAX, 0};
    const ferretgold_object_config config = small_cache();
    it.cache = opened(&config, delete_next, &it);
    EXPECT(insert(it.cache, 0, &it, 1), FERRETGOLD_PLACED);
    EXPECT(erase(it.cache, 0), 1);
    EXPECT(it.deleted, CHAIN);
    EXPECT(it.highest - it.lowest, 0);
    EXPECT(ferretgold_object_close(it.cache), FERRETGOLD_OK);
    EXPECT(it.deleted, CHAIN);
}

typedef struct guest {
    ferretgold_object_cache *cache;
    const ferretgold_object_handle *handle;
    unsigned deleted;
    int looked, put, closed, counted;
} guest;

/* Looks the key up that it is given, and puts its object back in. */
static void come_back(void *context, const ferretgold_key *key, void *object, uint16_t kind) {
    guest *it = context;
    (void)kind;
    it->deleted += 1;
    it->looked = ferretgold_object_lookup(it->cache, key, &it->handle);
    it->closed = ferretgold_object_close(it->cache);
    it->counted = ferretgold_object_usage(it->cache, &(uint64_t){0});
    if (it->deleted == 1) {
        it->put = insert(it->cache, key->w0, object, 10);
        (void)released(it->cache, held(it->cache, key->w0));
    } else {
        it->put = insert(it->cache, key->w0, object, 10);
    }
}

static void coming_back(void) {
    guest it = {NULL, NULL, 0, 0, 0, 0, 0};
    const ferretgold_object_config config = small_cache();
    it.cache = opened(&config, come_back, &it);
    EXPECT(insert(it.cache, 1, &it, 10), FERRETGOLD_PLACED);
    EXPECT(erase(it.cache, 1), 1);
    EXPECT(it.deleted == 1 && it.looked == FERRETGOLD_MISS && it.counted == FERRETGOLD_OK, true);
    EXPECT(it.put == FERRETGOLD_PLACED && it.closed == FERRETGOLD_CLIENTS_OUT, true);
    const ferretgold_object_handle *handle = held(it.cache, 1);
    EXPECT(handle->object == &it, true);
    (void)released(it.cache, handle);
    EXPECT(ferretgold_object_close(it.cache), FERRETGOLD_OK);
    EXPECT(it.deleted == 2 && it.looked == FERRETGOLD_MISS, true);
    EXPECT(it.counted, FERRETGOLD_NO_CLIENT);
    EXPECT(it.put == FERRETGOLD_DROPPED && it.closed == FERRETGOLD_CLIENTS_OUT, true);
}

/* ---- What the program is -------------------------------------------------------------------- */

static void object_rows(void) {
    null_pointers();
    bad_arguments();
    life();
    twice();
    alone();
    unused();
    unused_and_dropped();
    without_status();
    walk();
    totals();
    refused_after_evictions();
    many_handles();
    many_serials();
    others_handles();
    long_evictions();
    long_chain();
    coming_back();
}

/* The checking library ends the program at the second insertion of an object that stands. */
static void owned(void) {
    journal log = {0};
    const ferretgold_object_config config = small_cache();
    ferretgold_object_cache *cache = opened(&config, note, &log);
    int block = 0;
    EXPECT(ferretgold_object_owns(cache, 3), FERRETGOLD_OK);
    for (unsigned k = 0; k < 2; k++) {
        EXPECT(insert(cache, 1, NULL, 10), FERRETGOLD_PLACED);
        EXPECT(insert(cache, 2, NULL, 10), FERRETGOLD_PLACED);
        EXPECT(insert(cache, 3, &block, 10), FERRETGOLD_PLACED);
        EXPECT(erase(cache, 1) + erase(cache, 2) + erase(cache, 3), 3);
    }
    EXPECT(insert(cache, 1, &block, 10), FERRETGOLD_PLACED);
    EXPECT(insert(cache, 2, &block, 10), FERRETGOLD_PLACED);
}

int main(int count, char **words) {
    if (count > 1 && strcmp(words[1], "owned") == 0) {
        owned();
        return 1;
    }
    const bool rows = count < 3;
    if (rows) {
        object_rows();
        object_opening();
        object_bytes();
        object_seeds();
        object_orders();
        object_uses();
    }
    object_walks();
    object_threads(count > 1 ? strtoul(words[count - 1], NULL, 10) : 1000000);
    printf("object: %lu faults\n", atomic_load(&object_faults));
    return atomic_load(&object_faults) != 0;
}
