/* Threads insert objects into a cache, find them, walk over them, and erase them. Each object is handed back exactly
 * once, as it was inserted, and none while a handle is held on it; no call asks for memory. Opening a
 * cache refuses where any request for memory is refused, and leaves nothing behind.
 * Linked with heap.c. Usage: objects [OBJECTS]    15,000,000 at most and by default */
#include "ferretgold_object.h"
#include "ferretgold_raw.h"
#include "heap.h"

#include <pthread.h>
#include <stdatomic.h>
#include <stdio.h>
#include <stdlib.h>

enum { THREADS = 4, HANDLES = 8, SHARDS = 2, SLOTS = 256, KEYS = 640, ROUNDS = 4 };
enum { MOST = 15000000, NOTHING = 0xffff };

/* Where an object is: the caller's before it is inserted, and again where it isn't placed. */
enum { OWN, INSERTED, BACK };

typedef struct object {
    _Atomic uint16_t held;
    _Atomic uint8_t state;
    uint16_t key; /* NOTHING once it is handed back */
} object;

typedef struct worker {
    ferretgold_object client;
    object *next, *last; /* the objects that it inserts */
    uint64_t state;
    ferretgold_handle handles[HANDLES];
    object *held[HANDLES];
    unsigned holds;
    unsigned long inserted, refused, alone, full, back, wrong;
} worker;

static unsigned long faults = 0;

#define EXPECT(what, wanted) expect(__LINE__, #what, (unsigned long)(what), (unsigned long)(wanted))

static void expect(int line, const char *what, unsigned long is, unsigned long wanted) {
    if (is != wanted) {
        printf("objects.c, line %d: %s is %lu and not %lu\n", line, what, is, wanted);
        faults += 1;
    }
}

static uint64_t drawn(worker *it, uint64_t below) {
    it->state ^= it->state << 13;
    it->state ^= it->state >> 7;
    it->state ^= it->state << 17;
    return (it->state >> 20) % below;
}

/* Low numbers are drawn more often. */
static ferretgold_key drawn_key(worker *it) {
    return (ferretgold_key){drawn(it, 1 + drawn(it, KEYS)), 5};
}

static object *object_of(const ferretgold_object_value *value) {
    return (object *)(uintptr_t)value->address;
}

static ferretgold_object_value value_of(const object *one) {
    return (ferretgold_object_value){(uintptr_t)one, (uint16_t)(3 * one->key)};
}

static bool is_as_inserted(const object *one, uint16_t kind) {
    return atomic_load(&one->state) == INSERTED && one->key != NOTHING && kind == (uint16_t)(3 * one->key);
}

static void handed_back(worker *it, const ferretgold_key *key, const ferretgold_object_value *value) {
    object *one = object_of(value);
    it->wrong += !is_as_inserted(one, value->kind) || key->w0 != one->key || key->w1 != 5;
    it->wrong += atomic_load(&one->held) != 0;
    it->wrong += atomic_exchange(&one->state, BACK) != INSERTED;
    one->key = NOTHING;
    it->back += 1;
}

static void erase(worker *it) {
    const ferretgold_key key = drawn_key(it);
    uint32_t hidden = 0;
    it->wrong += ferretgold_raw_object_erase(&it->client, &key, &hidden) != FERRETGOLD_OK;
}

/* Takes all that is on the list. What is done with one may come back into the cache. */
static void takes_all(worker *it) {
    ferretgold_key key;
    ferretgold_object_value value;
    size_t left;
    while (ferretgold_raw_object_take_gone(&it->client, &key, &value, &left) == FERRETGOLD_OK) {
        handed_back(it, &key, &value);
        if (drawn(it, 8) == 0) {
            erase(it);
        }
    }
}

static void keep(worker *it, object *one, ferretgold_handle handle, uint16_t kind) {
    atomic_fetch_add(&one->held, 1);
    it->wrong += !is_as_inserted(one, kind);
    it->handles[it->holds] = handle;
    it->held[it->holds] = one;
    it->holds += 1;
}

static void gives_back(worker *it) {
    const unsigned k = (unsigned)drawn(it, it->holds);
    object *one = it->held[k];
    const ferretgold_handle handle = it->handles[k];
    bool freed = false;
    it->wrong += !is_as_inserted(one, (uint16_t)(3 * one->key));
    atomic_fetch_sub(&one->held, 1);
    it->holds -= 1;
    it->held[k] = it->held[it->holds];
    it->handles[k] = it->handles[it->holds];
    it->wrong += ferretgold_raw_object_release(&it->client, &handle, drawn(it, 2) == 0,
                                               drawn(it, 4) == 0, &freed) != FERRETGOLD_OK;
}

static void looks_up(worker *it) {
    const ferretgold_key key = drawn_key(it);
    ferretgold_held_object held = {.key = key, .charge = 0};
    if (ferretgold_raw_object_hold(&it->client, &held) != FERRETGOLD_OK) {
        it->wrong += held.key.w0 != key.w0 || held.key.w1 != key.w1 || held.charge != 0;
        return;
    }
    object *one = object_of(&held.object);
    keep(it, one, held.handle, held.object.kind);
    it->wrong += one->key != key.w0 || held.key.w0 != key.w0 || held.key.w1 != key.w1;
    uint64_t charge = 0;
    it->wrong += ferretgold_raw_object_charge(&it->client, &held.handle, &charge) != FERRETGOLD_OK;
    it->wrong += charge < 1 || charge > 8 || held.charge != charge;
    if (it->holds < HANDLES && drawn(it, 4) == 0) {
        ferretgold_handle more;
        it->wrong += ferretgold_raw_object_reref(&it->client, &held.handle, &more)
                     != FERRETGOLD_OK;
        keep(it, one, more, held.object.kind);
    }
}

/* Walks over some slots, and holds what is there; beyond the last slot and the last shard is nothing. */
static void walks(worker *it) {
    uint32_t slot = (uint32_t)drawn(it, SLOTS + 1);
    const uint32_t shard = (uint32_t)drawn(it, SHARDS + 1);
    for (unsigned k = 0; k < 8 && it->holds < HANDLES; k++, slot++) {
        ferretgold_held_object held;
        const uint32_t status = ferretgold_raw_object_pin_at(&it->client, shard, slot, &held);
        if (status == FERRETGOLD_OK) {
            keep(it, object_of(&held.object), held.handle, held.object.kind);
            it->wrong += object_of(&held.object)->key != held.key.w0 || held.key.w1 != 5;
            it->wrong += held.charge < 1 || held.charge > 8 || shard >= SHARDS || slot >= SLOTS;
        } else {
            it->wrong += status != FERRETGOLD_MISS;
        }
    }
}

/* Inserts an object once, with a handle where there may be one more: whether the cache or the client
 * has it then. */
static bool inserts_once(worker *it, object *one, bool pinned, bool *list_full) {
    const ferretgold_key key = {one->key, 5};
    const ferretgold_object_value value = value_of(one);
    const uint32_t priority = (uint32_t)drawn(it, 3);
    const uint32_t charge = 1 + (uint32_t)drawn(it, 8);
    uint32_t placing = FERRETGOLD_DROPPED;
    ferretgold_handle handle;
    uint32_t status;
    if (pinned) {
        status = ferretgold_raw_object_insert_pinned(&it->client, &key, &value, charge, priority,
                                                     &placing, list_full, &handle);
    } else {
        status = ferretgold_raw_object_insert(&it->client, &key, &value, charge, priority, &placing,
                                              list_full);
    }
    if (status == FERRETGOLD_GONE_FULL) {
        it->full += 1;
        *list_full = true;
        return false;
    }
    if (status != FERRETGOLD_OK) {
        it->wrong += status != FERRETGOLD_CAPACITY_FULL && status != FERRETGOLD_OCCUPANCY_FULL;
        return false;
    }
    if (pinned) {
        it->wrong += placing == FERRETGOLD_DROPPED;
        it->alone += placing == FERRETGOLD_STANDALONE;
        keep(it, one, handle, value.kind);
    }
    return placing != FERRETGOLD_DROPPED;
}

/* Inserts the next object; where the list was full, once more with an empty one. */
static void inserts(worker *it) {
    object *one = it->next++;
    const bool pinned = it->holds < HANDLES && drawn(it, 4) == 0;
    bool list_full = false;
    one->key = (uint16_t)drawn_key(it).w0;
    atomic_store(&one->state, INSERTED);
    bool has = inserts_once(it, one, pinned, &list_full);
    if (!has && list_full) {
        it->full += 1;
        takes_all(it);
        has = inserts_once(it, one, it->holds < HANDLES && pinned, &list_full);
    }
    it->inserted += has;
    it->refused += !has;
    it->wrong += !has && atomic_exchange(&one->state, OWN) != INSERTED;
}

static void *work(void *argument) {
    worker *it = argument;
    while (it->next < it->last) {
        const uint64_t what = drawn(it, 16);
        if (what < 5) {
            inserts(it);
        } else if (what < 10 && it->holds < HANDLES) {
            looks_up(it);
        } else if (what < 14 && it->holds > 0) {
            gives_back(it);
        } else if (what == 14) {
            erase(it);
        } else if (what == 15) {
            takes_all(it);
            walks(it);
        }
    }
    while (it->holds > 0) {
        gives_back(it);
    }
    takes_all(it);
    return NULL;
}

static uint32_t opens(bool strict, uint32_t gone, ferretgold_object clients[THREADS],
                      ferretgold_object *cache, ferretgold_object *left) {
    ferretgold_object_config config = {0};
    config.slots = SLOTS;
    config.clients = THREADS;
    config.handles = HANDLES;
    config.gone = gone;
    config.shards = SHARDS;
    config.strict = strict;
    config.capacity = 700;
    config.serials = FERRETGOLD_MOST_SERIALS;
    config.seed = 11;
    const uint32_t status = ferretgold_raw_objects_open(left);
    if (status != FERRETGOLD_OK) {
        return status;
    }
    return ferretgold_raw_object_open(&config, 1, clients, THREADS, cache);
}

/* Closes a cache: what it has left is handed back to this worker. */
static void closes(worker *it, ferretgold_object clients[THREADS], ferretgold_object cache,
                   ferretgold_object left) {
    ferretgold_object kept = {0};
    ferretgold_key key;
    ferretgold_object_value value;
    EXPECT(ferretgold_raw_object_close(cache, clients, THREADS, &left, &kept), FERRETGOLD_OK);
    while (ferretgold_raw_objects_next(&left, &key, &value) == FERRETGOLD_OK) {
        handed_back(it, &key, &value);
    }
    EXPECT(ferretgold_raw_objects_end(left, &kept), FERRETGOLD_OK);
}

static void round_of(unsigned number, object *objects, size_t count) {
    static worker workers[THREADS];
    static worker sum;
    const bool strict = number % 2 == 1;
    const uint32_t gone = number / 2 == 0 ? 4 : 256;
    const size_t blocks = heap_blocks;
    ferretgold_object clients[THREADS] = {{0}}, cache = {0}, left = {0};
    pthread_t ids[THREADS];
    sum = (worker){0};
    EXPECT(opens(strict, gone, clients, &cache, &left), FERRETGOLD_OK);
    heap_left = 0; /* no call of a client asks for memory */
    for (size_t k = 0; k < THREADS; k++) {
        workers[k] = (worker){0};
        workers[k].client = clients[k];
        workers[k].state = 0x9e3779b97f4a7c15 * (k + 1) + number;
        workers[k].next = objects + count / THREADS * k;
        workers[k].last = objects + count / THREADS * (k + 1);
        EXPECT(pthread_create(&ids[k], NULL, work, &workers[k]), 0);
    }
    for (size_t k = 0; k < THREADS; k++) {
        EXPECT(pthread_join(ids[k], NULL), 0);
        sum.inserted += workers[k].inserted;
        sum.refused += workers[k].refused;
        sum.alone += workers[k].alone;
        sum.full += workers[k].full;
        sum.back += workers[k].back;
        sum.wrong += workers[k].wrong;
    }
    heap_left = SIZE_MAX;
    closes(&sum, clients, cache, left);
    EXPECT(sum.wrong, 0);
    EXPECT(sum.back, sum.inserted);
    for (size_t k = 0; k < count / THREADS * THREADS; k++) {
        sum.back -= atomic_load(&objects[k].state) == BACK;
        sum.wrong += atomic_load(&objects[k].state) == INSERTED || atomic_load(&objects[k].held) != 0;
        objects[k] = (object){0};
    }
    EXPECT(sum.back, 0);
    EXPECT(sum.wrong, 0);
    EXPECT(heap_blocks, blocks);
    EXPECT(sum.alone > 0 && sum.refused > 0, 1);
    EXPECT(sum.full > 0 || gone > 4, 1);
    printf("objects: strict %d, list of %u: %lu were the cache's, %lu of them stood alone, %lu refused, "
           "%lu lists full\n", strict, gone, sum.inserted, sum.alone, sum.refused, sum.full);
}

/* Refuses each request for memory of an opening, alone and with all later ones. */
static void bears_refusals(void) {
    const size_t many = 1 << 20;
    const size_t blocks = heap_blocks;
    ferretgold_object clients[THREADS] = {{0}}, cache = {0}, left = {0};
    worker nobody = {0};
    heap_left = many;
    EXPECT(opens(true, 4, clients, &cache, &left), FERRETGOLD_OK);
    const size_t requests = many - heap_left;
    closes(&nobody, clients, cache, left);
    EXPECT(requests > THREADS, 1);
    for (size_t number = 0; number < 2 * requests; number++) {
        ferretgold_object kept = {0};
        heap_left = number / 2;
        heap_once = number % 2;
        left = cache = (ferretgold_object){0};
        EXPECT(opens(true, 4, clients, &cache, &left), FERRETGOLD_OUT_OF_MEMORY);
        heap_left = SIZE_MAX;
        EXPECT(cache.at == NULL, 1);
        EXPECT(left.at == NULL || ferretgold_raw_objects_end(left, &kept) == FERRETGOLD_OK, 1);
        EXPECT(heap_blocks, blocks);
    }
    printf("objects: each of %zu requests was refused\n", requests);
}

int main(int count, char **words) {
    static object objects[MOST / ROUNDS];
    const size_t all = count > 1 ? strtoul(words[1], NULL, 10) : MOST;
    bears_refusals();
    for (unsigned number = 0; number < ROUNDS; number++) {
        round_of(number, objects, all / ROUNDS);
    }
    return faults != 0;
}
