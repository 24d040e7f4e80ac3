/* Threads look up what they know to be there, or to be gone: what was placed is found until somebody begins to erase
 * it, or an eviction reaches it, and what was erased isn't until somebody begins to insert it. So do walks, which give
 * what is there all the while, once. The first that neither explains ends the program. A cache of bytes and one of
 * objects, each large enough to evict nothing, and too small for its keys.
 * Usage: promises [OPERATIONS]     so many of all threads, of each kind: 1,000,000 by default */
#include "ferretgold_object.h"

#include <pthread.h>
#include <stdatomic.h>
#include <stdio.h>
#include <stdlib.h>

enum { THREADS = 4, PHASES = 2, HANDLES = 16, PLACES = 84 /* of a hundred slots */ };
enum { BETWEEN = 256, STRIDE = 32 }; /* operations between two walks, the most slots that a call looks at, and 1 */

/* Keys that all fight for, then one of each thread, which no other one inserts or erases, and the last,
 * which is pinned all the time, and nobody erases it. Many begin at the same slot. */
enum { FOUGHT = 35, PINNED = FOUGHT + THREADS, KEYS, HOMES = 4 };

/* How large a cache is. */
typedef struct shape {
    const char *name;
    uint32_t slots;
    uint64_t capacity;
    bool strict;
    bool evicts; /* else it has a place for each entry that is inserted until it is closed, and takes each charge */
} shape;

/* How many calls of a kind were begun on a key, and how many have ended. */
typedef struct course {
    _Atomic uint64_t begun, ended;
} course;

/* What is known of a key, as 1 more than a count of calls; 0 is nothing. */
typedef struct book {
    _Alignas(64) course insertions, erasures;
    _Atomic uint64_t shown;  /* once so many erasures had ended, and no other one was begun, it was placed */
    _Atomic uint64_t erased; /* once so many insertions had ended, and no other one was begun, it was erased */
} book;

typedef union handle {
    ferretgold_handle bytes;
    const ferretgold_object_handle *object;
} handle;

/* The key of one thread. It is pinned while it is there, where the cache evicts. */
typedef struct owned {
    uint64_t key;
    bool there;
    handle pin;
} owned;

typedef struct counts {
    uint64_t there, gone, evicted; /* look-ups that had to find, that had to miss, that only an eviction explains */
    uint64_t walked;               /* keys that a walk had to give */
} counts;

typedef struct worker {
    const struct calls *calls;
    const shape *shape;
    ferretgold_client *client; /* of bytes: objects have that of the thread */
    uint64_t state, operations;
    owned own;
    counts did;
} worker;

/* How often a walk gave each key. */
typedef struct given {
    worker *it;
    uint64_t times[KEYS];
} given;

/* The calls of a kind of cache: `insert` gives a handle if one is asked for and the entry is placed; `walk` is a call
 * of a walk. */
typedef struct calls {
    const char *name;
    void (*open)(const shape *shape);
    void (*close)(void);
    void (*begin)(worker *it);
    void (*end)(worker *it);
    bool (*get)(worker *it, uint64_t key);
    bool (*hold)(worker *it, uint64_t key, handle *handle);
    void (*release)(worker *it, const handle *handle);
    bool (*insert)(worker *it, uint64_t key, handle *handle);
    uint32_t (*erase)(worker *it, uint64_t key);
    ferretgold_status (*walk)(given *all, ferretgold_place *place, uint64_t slots);
} calls;

static book books[KEYS];

/* Ends the program at the first fault, and says of which key it is. */
static void must(bool is, const char *what, uint64_t key, uint64_t number) {
    if (!is) {
        fprintf(stderr, "promises: key %llu: %s (%llu)\n", (unsigned long long)key, what, (unsigned long long)number);
        _Exit(1);
    }
}

static uint64_t drawn(worker *it, uint64_t below) {
    it->state = it->state * UINT64_C(6364136223846793005) + 1442695040888963407;
    return (it->state >> 33) % below;
}

/* A key whose first look is at one of a few slots, with steps of its own from there. */
static ferretgold_key key_of(uint64_t number) {
    return (ferretgold_key){2 * (number / HOMES) + 1, number % HOMES};
}

/* Notes that a walk gave a key. Whether its call goes on. */
static bool is_given(given *all, const ferretgold_key *name) {
    const uint64_t key = name->w0 / 2 * HOMES + name->w1;
    must(key < KEYS && name->w0 % 2 == 1 && name->w1 < HOMES, "a walk gave a key that is none", key, name->w0);
    all->times[key]++;
    return drawn(all->it, 8) > 0;
}

/* Whether an insertion has placed its entry. What stands alone goes at once. */
static bool is_placed(worker *it, uint64_t key, ferretgold_status status, ferretgold_inserted came, handle *handle) {
    must(status == FERRETGOLD_OK || status == FERRETGOLD_CAPACITY_FULL || status == FERRETGOLD_OCCUPANCY_FULL,
         "an insertion's status", key, status);
    if (status == FERRETGOLD_OK && came == FERRETGOLD_STANDALONE) {
        it->calls->release(it, handle);
    }
    return status == FERRETGOLD_OK && came == FERRETGOLD_PLACED;
}

/* ---- Bytes: the value of a key is its number ------------------------------------------------- */

static ferretgold_cache *of_bytes;

static void bytes_open(const shape *shape) {
    const ferretgold_config config = {.slots = shape->slots, .room = 1, .clients = THREADS + 1, .handles = HANDLES,
                                      .shards = 1, .strict = shape->strict, .capacity = shape->capacity,
                                      .serials = FERRETGOLD_MOST_SERIALS, .seed = FERRETGOLD_UNSEEDED};
    must(ferretgold_open(&config, &of_bytes) == FERRETGOLD_OK, "opening", 0, 0);
}

static void bytes_close(void) {
    must(ferretgold_close(of_bytes, NULL) == FERRETGOLD_OK, "closing", 0, 0);
}

static void bytes_begin(worker *it) {
    must(ferretgold_client_open(of_bytes, &it->client) == FERRETGOLD_OK, "a client", 0, 0);
}

static void bytes_end(worker *it) {
    must(ferretgold_client_close(of_bytes, it->client) == FERRETGOLD_OK, "a client's end", 0, 0);
}

static bool bytes_get(worker *it, uint64_t key) {
    const ferretgold_key name = key_of(key);
    uint64_t value = key;
    size_t length = sizeof value;
    const ferretgold_status status =
        ferretgold_get(it->client, &name, &value, sizeof value, drawn(it, 2) == 0, &length);
    must(status <= FERRETGOLD_MISS, "the status of a read", key, status);
    must(value == key && length == sizeof value, "the value of", key, value);
    return status == FERRETGOLD_OK;
}

static bool bytes_hold(worker *it, uint64_t key, handle *handle) {
    const ferretgold_key name = key_of(key);
    const ferretgold_status status = ferretgold_lookup(it->client, &name, &handle->bytes);
    must(status <= FERRETGOLD_MISS, "the status of a look-up", key, status);
    return status == FERRETGOLD_OK;
}

static void bytes_release(worker *it, const handle *handle) {
    const ferretgold_status status = ferretgold_release(it->client, handle->bytes, drawn(it, 2) == 0, false, NULL);
    must(status == FERRETGOLD_OK, "the status of a release", 0, status);
}

static bool bytes_insert(worker *it, uint64_t key, handle *handle) {
    const ferretgold_key name = key_of(key);
    const ferretgold_priority priority = (ferretgold_priority)drawn(it, 3);
    ferretgold_inserted came = FERRETGOLD_DROPPED;
    const ferretgold_status status =
        handle == NULL ? ferretgold_insert(it->client, &name, &key, sizeof key, 1, priority, &came)
                       : ferretgold_insert_pinned(it->client, &name, &key, sizeof key, 1, priority, &came,
                                                  &handle->bytes);
    return is_placed(it, key, status, came, handle);
}

static uint32_t bytes_erase(worker *it, uint64_t key) {
    const ferretgold_key name = key_of(key);
    uint32_t hidden = 0;
    must(ferretgold_erase(it->client, &name, &hidden) == FERRETGOLD_OK, "the status of an erasure", key, 0);
    return hidden;
}

static bool bytes_seen(void *to, const ferretgold_held_entry *held) {
    given *all = to;
    uint64_t value = KEYS;
    size_t length = 0;
    must(ferretgold_read_value(all->it->client, held->handle, &value, sizeof value, &length) == FERRETGOLD_OK
             && length == sizeof value && key_of(value).w0 == held->key.w0 && key_of(value).w1 == held->key.w1,
         "the value of what a walk holds", value, length);
    return is_given(all, &held->key);
}

static ferretgold_status bytes_walk(given *all, ferretgold_place *place, uint64_t slots) {
    return ferretgold_walk(all->it->client, place, slots, bytes_seen, all);
}

/* ---- Objects: that of a key is an element of a list ------------------------------------------ */

static ferretgold_object_cache *of_objects;
static char objects[KEYS];

static void ignore(void *context, const ferretgold_key *key, void *object, uint16_t kind) {
    (void)context, (void)key, (void)object, (void)kind;
}

/* With a client for each thread that comes to it. */
static void objects_open(const shape *shape) {
    ferretgold_object_config config = FERRETGOLD_OBJECT_CONFIG;
    config.slots = shape->slots;
    config.clients = PHASES * THREADS + 1;
    config.handles = HANDLES;
    config.shards = 1;
    config.strict = shape->strict;
    config.capacity = shape->capacity;
    config.seed = FERRETGOLD_UNSEEDED;
    must(ferretgold_object_open(&config, ignore, NULL, &of_objects) == FERRETGOLD_OK, "opening", 0, 0);
}

static void objects_close(void) {
    must(ferretgold_object_close(of_objects) == FERRETGOLD_OK, "closing", 0, 0);
}

static void objects_begin(worker *it) {
    (void)it;
}

static bool objects_hold(worker *it, uint64_t key, handle *handle) {
    const ferretgold_key name = key_of(key);
    const ferretgold_status status = ferretgold_object_lookup(of_objects, &name, &handle->object);
    (void)it;
    must(status <= FERRETGOLD_MISS, "the status of a look-up", key, status);
    must(status != FERRETGOLD_OK || handle->object->object == &objects[key], "the object of", key, 0);
    return status == FERRETGOLD_OK;
}

static void objects_release(worker *it, const handle *handle) {
    const ferretgold_status status =
        ferretgold_object_release(of_objects, handle->object, drawn(it, 2) == 0, false, NULL);
    must(status == FERRETGOLD_OK, "the status of a release", 0, status);
}

static bool objects_insert(worker *it, uint64_t key, handle *handle) {
    const ferretgold_key name = key_of(key);
    const ferretgold_priority priority = (ferretgold_priority)drawn(it, 3);
    ferretgold_inserted came = FERRETGOLD_DROPPED;
    const ferretgold_status status =
        handle == NULL ? ferretgold_object_insert(of_objects, &name, &objects[key], 1, 1, priority, &came)
                       : ferretgold_object_insert_pinned(of_objects, &name, &objects[key], 1, 1, priority, &came,
                                                         &handle->object);
    return is_placed(it, key, status, came, handle);
}

static uint32_t objects_erase(worker *it, uint64_t key) {
    const ferretgold_key name = key_of(key);
    uint32_t hidden = 0;
    (void)it;
    must(ferretgold_object_erase(of_objects, &name, &hidden) == FERRETGOLD_OK, "the status of an erasure", key, 0);
    return hidden;
}

static bool objects_seen(void *to, const ferretgold_object_handle *held) {
    const size_t key = (size_t)((char *)held->object - objects);
    must(key < KEYS && key_of(key).w0 == held->key.w0 && key_of(key).w1 == held->key.w1,
         "the object of what a walk holds", key, 0);
    return is_given(to, &held->key);
}

static ferretgold_status objects_walk(given *all, ferretgold_place *place, uint64_t slots) {
    return ferretgold_object_walk(of_objects, place, slots, objects_seen, all);
}

/* ---- What is known of a key ------------------------------------------------------------------ */

/* 1 more than how many of these calls were begun, if all have ended; else 0. */
static uint64_t settled(course *it) {
    const uint64_t ended = atomic_load(&it->ended);
    return atomic_load(&it->begun) == ended ? ended + 1 : 0;
}

static void raise(_Atomic uint64_t *known, uint64_t number) {
    uint64_t seen = atomic_load(known);
    while (seen < number && !atomic_compare_exchange_weak(known, &seen, number)) {
    }
}

static bool inserts(worker *it, uint64_t key, handle *handle) {
    book *of = &books[key];
    const uint64_t erasures = settled(&of->erasures);
    atomic_fetch_add(&of->insertions.begun, 1);
    const bool placed = it->calls->insert(it, key, handle);
    atomic_fetch_add(&of->insertions.ended, 1);
    if (placed) {
        raise(&of->shown, erasures);
    }
    return placed;
}

static uint32_t erases(worker *it, uint64_t key) {
    book *of = &books[key];
    const uint64_t insertions = settled(&of->insertions);
    atomic_fetch_add(&of->erasures.begun, 1);
    const uint32_t hidden = it->calls->erase(it, key);
    atomic_fetch_add(&of->erasures.ended, 1);
    raise(&of->erased, insertions);
    return hidden;
}

static bool looks_up(worker *it, uint64_t key) {
    handle handle;
    if (it->calls->get != NULL && drawn(it, 2) == 0) {
        return it->calls->get(it, key);
    }
    const bool found = it->calls->hold(it, key, &handle);
    if (found) {
        it->calls->release(it, &handle);
    }
    return found;
}

/* Whether a key was there since it was shown so, and whether it was gone since it was erased so. */
static bool has_stood(const book *of, uint64_t shown) {
    return shown > atomic_load(&of->erasures.begun);
}

static bool has_lacked(const book *of, uint64_t erased) {
    return erased > atomic_load(&of->insertions.begun);
}

/* Looks up a key that was shown once so many erasures had ended, and no eviction reaches it if it is kept. */
static void finds(worker *it, uint64_t key, uint64_t shown, bool kept) {
    book *of = &books[key];
    const uint64_t erased = atomic_load(&of->erased);
    const bool found = looks_up(it, key), is_there = has_stood(of, shown), is_gone = has_lacked(of, erased);
    must(!found || !is_gone, "found, though it was erased and not inserted since", key, erased);
    must(found || !is_there || !kept, "missed, though it was placed and not erased since", key, shown);
    it->did.there += found && is_there && kept;
    it->did.gone += is_gone;
    it->did.evicted += !found && is_there;
}

/* Whether no eviction reaches a key: while it is there it is pinned, or its cache evicts nothing. */
static bool is_kept(const worker *it, uint64_t key) {
    return key >= FOUGHT || !it->shape->evicts;
}

static void finds_known(worker *it, uint64_t key) {
    finds(it, key, atomic_load(&books[key].shown), is_kept(it, key));
}

/* ---- What a thread does ---------------------------------------------------------------------- */

/* Inserts the key that no other thread does, or erases it, or only looks it up. */
static void uses_own(worker *it) {
    owned *own = &it->own;
    const bool pins = it->shape->evicts;
    if (!own->there) {
        own->there = inserts(it, own->key, pins ? &own->pin : NULL);
        must(own->there || pins, "not placed, though there is room", own->key, 0);
    } else if (drawn(it, 4) == 0) {
        must(erases(it, own->key) == 1, "not hidden once, though it is there", own->key, 0);
        finds_known(it, own->key);
        if (pins) {
            it->calls->release(it, &own->pin);
        }
        own->there = false;
    }
    finds_known(it, own->key);
}

/* Looks up once more what it holds meanwhile, so that no eviction reaches it. */
static void holds(worker *it, uint64_t key) {
    const uint64_t erasures = settled(&books[key].erasures);
    handle handle;
    if (it->calls->hold(it, key, &handle)) {
        finds(it, key, erasures, true);
        it->calls->release(it, &handle);
    }
}

/* Walks over the slots, some a call. Of what all fight for, two entries may be there. */
static void walks(worker *it) {
    uint64_t shown[KEYS], erased[KEYS];
    given all = {.it = it};
    ferretgold_place place = {0, 0};
    ferretgold_status status = FERRETGOLD_OK;
    for (uint64_t key = 0; key < KEYS; key++) {
        shown[key] = atomic_load(&books[key].shown);
        erased[key] = atomic_load(&books[key].erased);
    }
    while (status == FERRETGOLD_OK) {
        status = it->calls->walk(&all, &place, drawn(it, STRIDE));
    }
    must(status == FERRETGOLD_MISS, "the status of a walk", 0, status);
    for (uint64_t key = 0; key < KEYS; key++) {
        const uint64_t times = all.times[key];
        const bool is_there = is_kept(it, key) && has_stood(&books[key], shown[key]);
        must(times == 0 || !has_lacked(&books[key], erased[key]), "walked over, though it was erased", key, times);
        must(times == 1 || (times > 1 && key < FOUGHT) || !is_there, "not walked over once, though it was there", key,
             times);
        it->did.walked += is_there;
    }
}

static void *work(void *argument) {
    worker *it = argument;
    for (uint64_t k = 0; k < it->operations; k++) {
        if (drawn(it, BETWEEN) == 0) {
            walks(it);
        }
        const uint64_t key = drawn(it, KEYS), what = drawn(it, 16);
        if (what < 4) {
            uses_own(it);
        } else if (what < 10 || key >= FOUGHT) {
            finds_known(it, key);
        } else if (what < 13) {
            (void)inserts(it, key, NULL);
        } else if (what < 14) {
            (void)erases(it, key);
        } else {
            holds(it, key);
        }
    }
    return NULL;
}

/* ---- Threads on one cache -------------------------------------------------------------------- */

/* A worker goes on with the key of another one, and with a pin of its own if that has one. */
static void takes(worker *it, worker *from, owned own) {
    it->own = own;
    if (own.there && it->shape->evicts) {
        must(it->calls->hold(it, own.key, &it->own.pin), "missed behind a join", own.key, 0);
        it->calls->release(from, &own.pin);
    }
}

/* Behind a join: another client finds what was placed before, and each key goes to another thread. */
static void goes_on(worker *first, worker workers[THREADS]) {
    const owned last = workers[THREADS - 1].own;
    for (uint64_t key = 0; key < KEYS; key++) {
        finds_known(first, key);
    }
    for (unsigned k = THREADS - 1; k > 0; k--) {
        takes(&workers[k], &workers[k - 1], workers[k - 1].own);
    }
    takes(&workers[0], &workers[THREADS - 1], last);
}

static void runs(worker workers[THREADS]) {
    pthread_t threads[THREADS];
    for (unsigned k = 0; k < THREADS; k++) {
        must(pthread_create(&threads[k], NULL, work, &workers[k]) == 0, "a thread", 0, k);
    }
    for (unsigned k = 0; k < THREADS; k++) {
        must(pthread_join(threads[k], NULL) == 0, "a thread's end", 0, k);
    }
}

static void ends(worker *it, counts *sum) {
    if (it->own.there && it->shape->evicts) {
        it->calls->release(it, &it->own.pin);
    }
    it->calls->end(it);
    sum->there += it->did.there;
    sum->gone += it->did.gone;
    sum->evicted += it->did.evicted;
    sum->walked += it->did.walked;
}

/* All threads on one cache, which is closed behind so many operations of each of them in each phase. */
static void round_of(const calls *calls, const shape *shape, uint64_t each, uint64_t number, counts *sum) {
    worker workers[THREADS + 1], *first = &workers[THREADS];
    for (unsigned k = 0; k < KEYS; k++) {
        books[k] = (book){.shown = 0};
    }
    calls->open(shape);
    for (unsigned k = 0; k <= THREADS; k++) {
        workers[k] = (worker){.calls = calls, .shape = shape, .state = number * (THREADS + 1) + k,
                              .operations = each, .own.key = FOUGHT + k};
        calls->begin(&workers[k]);
    }
    uses_own(first);
    handle pin;
    must(first->own.there && calls->hold(first, PINNED, &pin), "not there", PINNED, 0);
    for (unsigned k = 0; k < PHASES; k++) {
        runs(workers);
        goes_on(first, workers);
    }
    calls->release(first, &pin);
    for (unsigned k = 0; k <= THREADS; k++) {
        ends(&workers[k], sum);
    }
    calls->close();
}

static const calls kinds[] = {
    {"bytes", bytes_open, bytes_close, bytes_begin, bytes_end, bytes_get, bytes_hold, bytes_release, bytes_insert,
     bytes_erase, bytes_walk},
    {"objects", objects_open, objects_close, objects_begin, objects_begin, NULL, objects_hold, objects_release,
     objects_insert, objects_erase, objects_walk},
};

static const shape shapes[] = {
    {"large", 16384, UINT64_C(1) << 40, false, false},
    {"small", 32, 24, false, true},
    {"small and strict", 32, 24, true, true},
};
enum { SHAPES = sizeof shapes / sizeof *shapes };

int main(int count, char **words) {
    const uint64_t all = count > 1 ? strtoull(words[1], NULL, 10) : 1000000;
    const uint64_t each = (shapes[0].slots * PLACES / 100 - 1) / PHASES / THREADS;
    for (unsigned kind = 0; kind < 2; kind++) {
        for (unsigned k = 0; k < SHAPES; k++) {
            counts sum = {0};
            for (uint64_t done = 0; done < all / SHAPES; done += each * PHASES * THREADS) {
                round_of(&kinds[kind], &shapes[k], each, done, &sum);
            }
            printf("promises: %s, %s: %llu look-ups had to find, %llu to miss, %llu evicted, %llu walked, 0 wrong\n",
                   kinds[kind].name, shapes[k].name, (unsigned long long)sum.there, (unsigned long long)sum.gone,
                   (unsigned long long)sum.evicted, (unsigned long long)sum.walked);
            must(sum.there > all / SHAPES / 8 && sum.gone > all / SHAPES / 16 && sum.walked > all / SHAPES / 256,
                 "too few were known", 0, k);
            must((sum.evicted > 0) == shapes[k].evicts, "evictions", 0, sum.evicted);
        }
    }
    return 0;
}
