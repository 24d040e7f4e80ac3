/* The same of a cache of objects, with fewer clients than threads: each call counts once, also where no
 * client was to be had.
 * Usage: object_counts CALLS */
#include "counting.h"
#include "ferretgold_object.h"

#include <pthread.h>
#include <stdlib.h>

enum { CLIENTS = 5, HANDLES = 2, KEYS = 24 };

static ferretgold_object_cache *cache;
static uint64_t each;
static atomic_ullong deleted;

typedef struct worker {
    uint64_t state;
    progress *progress;
    const ferretgold_object_handle *held;
    ferretgold_counts mine;
} worker;

static void delete_object(void *context, const ferretgold_key *key, void *object, uint16_t kind) {
    (void)context, (void)key, (void)object, (void)kind;
    atomic_fetch_add(&deleted, 1);
}

static void release(worker *it, uint64_t how) {
    if (it->held != NULL) {
        MUST(ferretgold_object_release(cache, it->held, how % 2 == 0, how % 3 == 0, NULL) == 0);
        it->held = NULL;
    }
}

/* One handle at a time, but now and then two, of which the client may have none left. */
static void look(worker *it, const ferretgold_key *key, uint64_t how) {
    const ferretgold_object_handle *handle = NULL;
    atomic_fetch_add(&it->progress->looks[0], 1);
    const ferretgold_status status = ferretgold_object_lookup(cache, key, &handle);
    *(status == FERRETGOLD_OK ? &it->mine.hits : &it->mine.misses) += 1;
    atomic_fetch_add(&it->progress->looks[1], 1);
    if (status == FERRETGOLD_OK) {
        release(it, how);
        it->held = handle;
    }
}

static void insert(worker *it, const ferretgold_key *key, uint64_t how) {
    const ferretgold_object_handle *handle = NULL;
    ferretgold_inserted inserted = FERRETGOLD_PLACED;
    ferretgold_status status;
    atomic_fetch_add(&it->progress->insertions[0], 1);
    if (how % 3 == 0) {
        status = ferretgold_object_insert(cache, key, NULL, 0, 1 + how % 400, FERRETGOLD_LOW, &inserted);
    } else {
        status = ferretgold_object_insert_pinned(cache, key, NULL, 0, 1 + how % 40, FERRETGOLD_LOW,
                                                 &inserted, how % 3 == 1 ? NULL : &handle);
    }
    if (status != FERRETGOLD_OK) {
        it->mine.refused++;
    } else {
        *(inserted == FERRETGOLD_PLACED    ? &it->mine.placed
          : inserted == FERRETGOLD_DROPPED ? &it->mine.dropped
                                           : &it->mine.standalone) += 1;
    }
    atomic_fetch_add(&it->progress->insertions[1], 1);
    if (handle != NULL) {
        release(it, how);
        it->held = handle;
    }
}

/* How a cache of one client counts so far. */
static bool is_so(ferretgold_object_cache *it, ferretgold_counts wanted) {
    ferretgold_counts all, of_client, nowhere, none = {0};
    MUST(ferretgold_object_cache_counts(it, &all) == FERRETGOLD_OK);
    MUST(ferretgold_object_client_counts(it, 0, &of_client) == FERRETGOLD_OK);
    MUST(ferretgold_object_client_counts(it, 1, &nowhere) == FERRETGOLD_OK);
    return memcmp(&all, &wanted, sizeof all) == 0 && memcmp(&of_client, &wanted, sizeof all) == 0
           && memcmp(&nowhere, &none, sizeof none) == 0;
}

/* What each call counts as, at once: refused for its arguments it doesn't. */
static void rows(void) {
    const ferretgold_key key = {1, 2}, other = {3, 4};
    const ferretgold_object_handle *held[2], *none = NULL;
    ferretgold_object_config config = FERRETGOLD_OBJECT_CONFIG;
    ferretgold_object_cache *it = NULL;
    config.slots = 8, config.shards = 1, config.clients = 1, config.handles = 2, config.strict = true;
    config.capacity = 100;
    MUST(ferretgold_object_open(&config, delete_object, NULL, &it) == FERRETGOLD_OK);
    MUST(is_so(it, (ferretgold_counts){0}));
    MUST(ferretgold_object_lookup(it, &key, &none) == FERRETGOLD_MISS);
    MUST(ferretgold_object_insert(it, &key, NULL, 0, 5, FERRETGOLD_LOW, NULL) == FERRETGOLD_OK);
    MUST(ferretgold_object_insert(it, &key, NULL, 0, 5, FERRETGOLD_LOW, NULL) == FERRETGOLD_OK);
    MUST(ferretgold_object_insert(it, &key, NULL, 0, 0, FERRETGOLD_LOW, NULL) == FERRETGOLD_NO_CHARGE);
    MUST(ferretgold_object_insert(it, &key, NULL, 0, 101, FERRETGOLD_LOW, NULL) == FERRETGOLD_TOO_LARGE);
    MUST(ferretgold_object_insert_pinned(it, &other, NULL, 0, 1, FERRETGOLD_LOW, NULL, NULL)
         == FERRETGOLD_OK);
    MUST(ferretgold_object_lookup(it, &other, &held[0]) == FERRETGOLD_OK);
    MUST(is_so(it, (ferretgold_counts){.hits = 1, .misses = 1, .placed = 2, .there = 1, .refused = 1,
                                       .by_turns = {4}}));
    MUST(ferretgold_object_insert_pinned(it, &key, NULL, 0, 1, FERRETGOLD_LOW, NULL, &held[1])
         == FERRETGOLD_OK);
    MUST(ferretgold_object_lookup(it, &other, &none) == FERRETGOLD_HANDLES_FULL);
    MUST(ferretgold_object_insert_pinned(it, &key, NULL, 0, 1, FERRETGOLD_LOW, NULL, &none)
         == FERRETGOLD_HANDLES_FULL);
    for (int k = 0; k < 2; k++) {
        MUST(ferretgold_object_release(it, held[k], true, false, NULL) == FERRETGOLD_OK);
    }
    MUST(ferretgold_object_pin_at(it, 0, 0, &none) == FERRETGOLD_MISS
         || ferretgold_object_release(it, none, true, false, NULL) == FERRETGOLD_OK);
    MUST(is_so(it, (ferretgold_counts){.hits = 1, .misses = 2, .placed = 2, .there = 2, .refused = 2,
                                       .by_turns = {6}}));
    MUST(ferretgold_object_close(it) == FERRETGOLD_OK);
    MUST(atomic_exchange(&deleted, 0) == 3);
}

/* How many insertions by_turns has. */
static uint64_t by_turns(const ferretgold_counts *it) {
    uint64_t sum = 0;
    for (size_t k = 0; k < sizeof it->by_turns / sizeof it->by_turns[0]; k++) {
        sum += it->by_turns[k];
    }
    return sum;
}

/* Whether one insertion more is counted, by the turns that it took. */
static bool is_one_more(const ferretgold_counts *was, const ferretgold_counts *is) {
    ferretgold_counts wanted = *was;
    size_t k = 0;
    while (k < sizeof wanted.by_turns / sizeof wanted.by_turns[0] - 1
           && is->turns - was->turns > (k == 0 ? 0 : UINT64_C(1) << (k - 1))) {
        k++;
    }
    wanted.by_turns[k] += 1;
    return memcmp(wanted.by_turns, is->by_turns, sizeof wanted.by_turns) == 0;
}

#ifdef __SANITIZE_THREAD__
enum { MARKS = 0 }; /* the store that stands before the library then marks nothing */
#else
enum { MARKS = 1 };
#endif

/* The numbers of insertions that turn the hand: what is evicted, its charges, and which of it was read;
 * on one thread nothing is lost. */
static void evictions(void) {
    enum { ENTRIES = 100, CHARGE = 7, ROOM = 5 };
    ferretgold_object_config config = FERRETGOLD_OBJECT_CONFIG;
    ferretgold_object_cache *it = NULL;
    const ferretgold_object_handle *held = NULL;
    ferretgold_counts is, was = {0};
    config.slots = 16, config.shards = 1, config.clients = 1, config.handles = 8, config.marks = true;
    config.capacity = ROOM * CHARGE;
    MUST(ferretgold_object_open(&config, delete_object, NULL, &it) == FERRETGOLD_OK);
    for (uint64_t k = 0; k < ENTRIES; k++) {
        const ferretgold_key key = {k, 1};
        MUST(ferretgold_object_put(it, &key, NULL, 0, CHARGE, FERRETGOLD_LOW));
        if (k % 10 == 0) {
            MUST(ferretgold_object_lookup(it, &key, &held) == FERRETGOLD_OK);
            MUST(ferretgold_object_release(it, held, true, false, NULL) == FERRETGOLD_OK);
        }
        MUST(ferretgold_object_cache_counts(it, &is) == FERRETGOLD_OK && is_one_more(&was, &is));
        MUST(grew(&was, &is) && is.placed == k + 1 && by_turns(&is) == k + 1 && is.lost == 0);
        MUST(is.evicted == atomic_load(&deleted) && is.freed == CHARGE * is.evicted);
    }
    MUST(is.evicted >= ENTRIES - ROOM - 1 && is.turns > 0 && is.by_turns[0] >= ROOM);
    MUST((is.evicted_hit >= 8) == (MARKS == 1) && is.evicted_hit <= 10 && is.hits == 10);
    MUST(ferretgold_object_close(it) == FERRETGOLD_OK);
    MUST(atomic_exchange(&deleted, 0) == ENTRIES);
}

/* One that is tried again, since its list was full, and refused in the end: it counts once, with the turns
 * of all tries. */
static void tries(void) {
    enum { ENTRIES = 40, TRIES = 4 };
    ferretgold_object_config config = FERRETGOLD_OBJECT_CONFIG;
    ferretgold_object_cache *it = NULL;
    ferretgold_counts is, was;
    config.slots = 64, config.shards = 1, config.clients = 1, config.handles = 2, config.strict = true;
    config.gone = 4, config.capacity = ENTRIES, config.seed = 1;
    MUST(ferretgold_object_open(&config, delete_object, NULL, &it) == FERRETGOLD_OK);
    for (uint64_t k = 0; k < ENTRIES; k++) {
        const ferretgold_key key = {k, 2};
        MUST(ferretgold_object_put(it, &key, NULL, 0, 1, FERRETGOLD_BOTTOM));
    }
    const ferretgold_key large = {ENTRIES, 2};
    MUST(ferretgold_object_cache_counts(it, &was) == FERRETGOLD_OK && was.placed == ENTRIES);
    MUST(ferretgold_object_insert(it, &large, NULL, 0, ENTRIES, FERRETGOLD_LOW, NULL)
         == FERRETGOLD_CAPACITY_FULL);
    MUST(ferretgold_object_cache_counts(it, &is) == FERRETGOLD_OK && is_one_more(&was, &is));
    MUST(is.refused == 1 && is.turns >= was.turns + TRIES && is.placed == ENTRIES);
    MUST(is.evicted > 4 && is.evicted == atomic_load(&deleted) && is.freed == is.evicted);
    MUST(ferretgold_object_close(it) == FERRETGOLD_OK);
    MUST(atomic_exchange(&deleted, 0) == ENTRIES);
}

static void *work(void *argument) {
    worker *it = argument;
    for (uint64_t done = 0; done < each; done++) {
        const uint64_t how = drawn(&it->state);
        const ferretgold_key key = {how >> 20 & 1, (how >> 32 & UINT64_C(0xffffff)) % KEYS};
        switch (how >> 60) {
        case 0: (void)ferretgold_object_erase(cache, &key, NULL); break;
        case 1: MUST(ferretgold_object_insert(cache, &key, NULL, 0, 0, FERRETGOLD_LOW, NULL) == 18); break;
        case 2: case 3: case 4: release(it, how); break;
        case 5: case 6: case 7: case 8: insert(it, &key, how & 0xffff); break;
        default: look(it, &key, how & 0xffff); break;
        }
    }
    release(it, 0);
    return NULL;
}

static ferretgold_status read_all(ferretgold_counts *counts) {
    return ferretgold_object_cache_counts(cache, counts);
}

static void *read_counts(void *argument) {
    static const ferretgold_counts none;
    ferretgold_counts all = none, of_client[CLIENTS + 1] = {none};
    uint64_t state = (uintptr_t)argument | 1;
    while (!atomic_load(&is_over)) {
        ferretgold_counts now;
        const uint32_t number = drawn(&state) % (CLIENTS + 1);
        look_once(read_all, &all);
        MUST(ferretgold_object_client_counts(cache, number, &now) == FERRETGOLD_OK);
        MUST(grew(&of_client[number], &now));
    }
    return NULL;
}

static void compare(const worker *workers) {
    ferretgold_counts sum = {0}, is, nowhere;
    for (int k = 0; k < WORKERS; k++) {
        const ferretgold_counts *its = &workers[k].mine;
        sum.hits += its->hits, sum.misses += its->misses, sum.placed += its->placed;
        sum.dropped += its->dropped, sum.standalone += its->standalone;
        sum.refused += its->refused;
    }
    MUST(read_all(&is) == FERRETGOLD_OK && is.hits == sum.hits && is.misses == sum.misses);
    MUST(is.placed == sum.placed && is.refused == sum.refused && by_turns(&is) == insertions(&sum));
    MUST(is.there + is.dropped + is.standalone == sum.dropped + sum.standalone);
    MUST(is.dropped < sum.dropped && is.standalone < sum.standalone); /* some met their key */
    MUST(is.hits > 0 && is.misses > 0 && is.placed > 0 && is.dropped > 0 && is.standalone > 0);
    MUST(is.refused > 0 && is.evicted > 0 && is.evicted < is.placed && is.freed >= is.evicted);
    MUST(is.turns >= by_turns(&is) - is.by_turns[0] && is.evicted_hit == 0);
    MUST(ferretgold_object_client_counts(cache, CLIENTS, &nowhere) == FERRETGOLD_OK);
    MUST(nowhere.by_turns[0] == insertions(&nowhere) && nowhere.turns + nowhere.evicted == 0);
    MUST(ferretgold_object_client_counts(cache, CLIENTS + 1, &is) == FERRETGOLD_OUT_OF_RANGE);
    MUST(ferretgold_object_client_counts(cache, CLIENTS + 1, NULL) == FERRETGOLD_NULL);
    MUST(ferretgold_object_client_counts(NULL, CLIENTS + 1, &is) == FERRETGOLD_NULL);
    MUST(ferretgold_object_cache_counts(NULL, &is) == FERRETGOLD_NULL);
    MUST(ferretgold_object_close(cache) == FERRETGOLD_OK);
    MUST(atomic_load(&deleted) == sum.placed + sum.standalone);
    printf("object counts: %llu hits, %llu dropped, %llu standalone, %llu refused, %llu without a client, "
           "%lu faults\n", (unsigned long long)sum.hits, (unsigned long long)sum.dropped,
           (unsigned long long)sum.standalone, (unsigned long long)sum.refused,
           (unsigned long long)(looks(&nowhere) + insertions(&nowhere)), atomic_load(&faults));
}

int main(int count, char **words) {
    ferretgold_object_config config = FERRETGOLD_OBJECT_CONFIG;
    pthread_t threads[WORKERS + READERS];
    static worker workers[WORKERS];
    each = (count > 1 ? strtoull(words[1], NULL, 10) : 4000000) / WORKERS;
    config.slots = 8, config.shards = 2, config.clients = CLIENTS, config.handles = HANDLES;
    config.gone = 4, config.capacity = 300, config.seed = 1;
    rows();
    evictions();
    tries();
    MUST(ferretgold_object_open(&config, delete_object, NULL, &cache) == FERRETGOLD_OK);
    for (uint64_t k = 0; k < WORKERS + READERS; k++) {
        const bool works = k < WORKERS;
        if (works) {
            workers[k] = (worker){.state = 77 * k + 5, .progress = &of_worker[k]};
        }
        MUST(pthread_create(&threads[k], NULL, works ? work : read_counts,
                            works ? (void *)&workers[k] : (void *)&threads[k])
             == 0);
    }
    for (int k = 0; k < WORKERS + READERS; k++) {
        atomic_store(&is_over, k >= WORKERS);
        MUST(pthread_join(threads[k], NULL) == 0);
    }
    compare(workers);
    return atomic_load(&faults) != 0;
}
