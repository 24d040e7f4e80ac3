/* What several threads do with a cache of objects: handles that another thread gives back, threads
 * that end or sleep, more threads than clients, caches that are closed under living threads; and
 * eight threads at once, whose objects know whether they are inserted and held. */
#define _XOPEN_SOURCE 600 /* for barriers */
#include "object_test.h"

#include <pthread.h>
#include <semaphore.h>

enum { ROUNDS = 4, MOST_OPERATIONS = 1000000 };
enum { MANY = 70, FEW = 64, CACHES = 100, LIVING = 4, THREADS = 8, MAIL = 16, HELD = 8 };
enum { KEYS = 200 };

static ferretgold_key key_of(uint64_t number) {
    return (ferretgold_key){number, 5};
}

static void count(void *context, const ferretgold_key *key, void *object, uint16_t kind) {
    (void)key, (void)object, (void)kind;
    atomic_fetch_add((atomic_ulong *)context, 1);
}

static ferretgold_object_cache *opened(const ferretgold_object_config *config,
                                       ferretgold_deleter deleter, void *context) {
    ferretgold_object_cache *cache = NULL;
    EXPECT(ferretgold_object_open(config, deleter, context, &cache), FERRETGOLD_OK);
    return cache;
}

static void insert(ferretgold_object_cache *cache, uint64_t number) {
    const ferretgold_key key = key_of(number);
    ferretgold_inserted inserted = 9;
    EXPECT(ferretgold_object_insert(cache, &key, NULL, 3, 1, FERRETGOLD_LOW, &inserted),
           FERRETGOLD_OK);
    EXPECT(inserted, FERRETGOLD_PLACED);
}

static void erase(ferretgold_object_cache *cache, uint64_t number) {
    const ferretgold_key key = key_of(number);
    uint32_t hidden = 9;
    EXPECT(ferretgold_object_erase(cache, &key, &hidden), FERRETGOLD_OK);
    EXPECT(hidden, 1);
}

static const ferretgold_object_handle *held(ferretgold_object_cache *cache, uint64_t number) {
    const ferretgold_key key = key_of(number);
    const ferretgold_object_handle *handle = NULL;
    EXPECT(ferretgold_object_lookup(cache, &key, &handle), FERRETGOLD_OK);
    return handle;
}

static bool released(ferretgold_object_cache *cache, const ferretgold_object_handle *handle) {
    bool freed = true;
    EXPECT(ferretgold_object_release(cache, handle, true, false, &freed), FERRETGOLD_OK);
    return freed;
}

/* ---- Another thread, which does what it is asked to ------------------------------------------ */

typedef struct other {
    ferretgold_object_cache *cache;
    const ferretgold_object_handle *handles[MANY];
    sem_t ready, go;
    pthread_t thread;
} other;

static void begin(other *it, ferretgold_object_cache *cache, void *(*work)(void *)) {
    it->cache = cache;
    EXPECT(sem_init(&it->ready, 0, 0) | sem_init(&it->go, 0, 0), 0);
    EXPECT(pthread_create(&it->thread, NULL, work, it), 0);
}

static void end(other *it) {
    EXPECT(pthread_join(it->thread, NULL), 0);
    EXPECT(sem_destroy(&it->ready) | sem_destroy(&it->go), 0);
}

static void await(sem_t *it) {
    while (sem_wait(it) != 0) {
    }
}

static void *release_first(void *argument) {
    other *it = argument;
    EXPECT(released(it->cache, it->handles[0]), false);
    return NULL;
}

/* A handle that another thread gives back is held until its client's next call. */
static void given_back_elsewhere(void) {
    atomic_ulong deleted = 0;
    static other it;
    ferretgold_object_config config = small_cache();
    const ferretgold_key key = key_of(2);
    config.clients = 2;
    ferretgold_object_cache *cache = opened(&config, count, &deleted);
    insert(cache, 1);
    it.handles[0] = held(cache, 1);
    EXPECT(ferretgold_object_ref(cache, it.handles[0]), FERRETGOLD_OK);
    erase(cache, 1);
    for (unsigned k = 0; k < 2; k++) {
        begin(&it, cache, release_first);
        end(&it);
        EXPECT(atomic_load(&deleted), 0);
        if (k == 0) {
            EXPECT(ferretgold_object_erase(cache, &key, NULL), FERRETGOLD_OK);
            EXPECT(atomic_load(&deleted), 0);
        }
    }
    EXPECT(ferretgold_object_close(cache), FERRETGOLD_OK);
    EXPECT(atomic_load(&deleted), 1);
    cache = opened(&config, count, &deleted);
    insert(cache, 1);
    it.handles[0] = held(cache, 1);
    erase(cache, 1);
    begin(&it, cache, release_first);
    end(&it);
    EXPECT(atomic_load(&deleted), 1);
    EXPECT(ferretgold_object_erase(cache, &key, NULL), FERRETGOLD_OK);
    EXPECT(atomic_load(&deleted), 2);
    EXPECT(ferretgold_object_close(cache), FERRETGOLD_OK);
}

static void *hold_many(void *argument) {
    other *it = argument;
    for (unsigned k = 0; k < MANY; k++) {
        it->handles[k] = held(it->cache, k);
    }
    sem_post(&it->ready);
    await(&it->go);
    return NULL;
}

/* Begins a walk. */
static ferretgold_status begin_walk(ferretgold_object_cache *cache) {
    const ferretgold_object_handle *handle = NULL;
    return ferretgold_object_pin_at(cache, 0, 0, &handle) == FERRETGOLD_MISS ? FERRETGOLD_OK
                                                                              : FERRETGOLD_NULL;
}

/* Asks for the usage, which is nothing then. */
static ferretgold_status tell_usage(ferretgold_object_cache *cache) {
    uint64_t usage = 1;
    const ferretgold_status status = ferretgold_object_usage(cache, &usage);
    EXPECT(usage, 0);
    return status;
}

/* What waits on the queue of a thread that sleeps, or has ended, is given back: once there are more
 * than a few, and where somebody collects, walks, asks for a total or closes. */
static void sleeping(bool ends, ferretgold_status (*gives_back)(ferretgold_object_cache *cache)) {
    atomic_ulong deleted = 0;
    static other it;
    ferretgold_object_config config = small_cache();
    const ferretgold_object_handle *handle = NULL;
    config.slots = 256;
    config.clients = 2;
    config.handles = MANY;
    ferretgold_object_cache *cache = opened(&config, count, &deleted);
    for (unsigned k = 0; k < MANY; k++) {
        insert(cache, k);
    }
    begin(&it, cache, hold_many);
    await(&it.ready);
    if (ends) {
        sem_post(&it.go);
        end(&it);
    }
    for (unsigned k = 0; k < MANY; k++) {
        erase(cache, k);
        (void)released(cache, it.handles[k]);
        EXPECT(atomic_load(&deleted), k < FEW - 1 ? 0 : FEW);
    }
    EXPECT(ferretgold_object_pin_at(cache, 0, 1, &handle), FERRETGOLD_MISS);
    EXPECT(atomic_load(&deleted), FEW);
    EXPECT(gives_back(cache), FERRETGOLD_OK);
    EXPECT(atomic_load(&deleted), MANY);
    EXPECT(ferretgold_object_close(cache), FERRETGOLD_OK);
    EXPECT(atomic_load(&deleted), MANY);
    if (!ends) {
        sem_post(&it.go);
        end(&it);
    }
}

static void *use_once(void *argument) {
    other *it = argument;
    insert(it->cache, 1);
    (void)released(it->cache, held(it->cache, 1));
    erase(it->cache, 1);
    return NULL;
}

/* Threads that end leave their clients to others. */
static void ending(void) {
    atomic_ulong deleted = 0;
    static other it;
    const ferretgold_object_config config = small_cache();
    ferretgold_object_cache *cache = opened(&config, count, &deleted);
    for (unsigned k = 0; k < CACHES; k++) {
        begin(&it, cache, use_once);
        end(&it);
        EXPECT(atomic_load(&deleted), k + 1);
    }
    EXPECT(ferretgold_object_close(cache), FERRETGOLD_OK);
}

/* ---- No client to be had --------------------------------------------------------------------- */

/* Waits within the call, or counts an object that has a count, where no client is to be had. */
static void delete_slowly(void *context, const ferretgold_key *key, void *object, uint16_t kind) {
    other *it = context;
    const ferretgold_object_handle *handle = NULL;
    if (object != NULL) {
        atomic_fetch_add((atomic_ulong *)object, 1);
        EXPECT(kind, 7);
        EXPECT(ferretgold_object_lookup(it->cache, key, &handle), FERRETGOLD_MISS);
        return;
    }
    sem_post(&it->ready);
    await(&it->go);
}

/* Where the only client is in a call, others don't wait for it. */
static void nowhere(void) {
    static other it;
    const ferretgold_object_config config = small_cache();
    const ferretgold_key key = key_of(1);
    const ferretgold_object_handle *handle = NULL, *none = NULL;
    ferretgold_inserted inserted = 9;
    atomic_ulong deleted = 0;
    ferretgold_object_cache *cache = opened(&config, delete_slowly, &it);
    begin(&it, cache, use_once);
    await(&it.ready);
    EXPECT(ferretgold_object_lookup(cache, &key, &handle), FERRETGOLD_MISS);
    EXPECT(ferretgold_object_insert(cache, &key, NULL, 1, 1, FERRETGOLD_LOW, &inserted),
           FERRETGOLD_OK);
    EXPECT(inserted, FERRETGOLD_DROPPED);
    inserted = 9;
    EXPECT(ferretgold_object_insert_pinned(cache, &key, NULL, 1, 1, FERRETGOLD_LOW, &inserted,
                                           NULL), FERRETGOLD_OK);
    EXPECT(inserted, FERRETGOLD_DROPPED);
    EXPECT(ferretgold_object_insert(cache, &key, NULL, 1, 0, (ferretgold_priority)3, NULL),
           FERRETGOLD_BAD_PRIORITY);
    EXPECT(ferretgold_object_insert(cache, &key, NULL, 1, 0, FERRETGOLD_LOW, NULL),
           FERRETGOLD_NO_CHARGE);
    EXPECT(ferretgold_object_insert(cache, &key, (void *)(UINT64_C(1) << 48), 1, 1, FERRETGOLD_LOW,
                                    NULL), FERRETGOLD_TOO_HIGH);
    for (unsigned k = 1; k < 3; k++) {
        EXPECT(ferretgold_object_insert_pinned(cache, &key, &deleted, 7, 9, FERRETGOLD_LOW,
                                               &inserted, &handle), FERRETGOLD_OK);
        EXPECT(inserted, FERRETGOLD_STANDALONE);
        EXPECT(handle->object == &deleted && handle->kind == 7 && handle->charge == 9, true);
        EXPECT(ferretgold_object_insert_pinned(cache, &key, NULL, 1, 1, FERRETGOLD_LOW, NULL,
                                               &none), FERRETGOLD_NO_CLIENT);
        EXPECT(ferretgold_object_ref(cache, handle), FERRETGOLD_OK);
        EXPECT(released(cache, handle), false);
        EXPECT(released(cache, handle), true);
        EXPECT(atomic_load(&deleted), k);
        EXPECT(ferretgold_object_release(cache, handle, false, false, NULL), FERRETGOLD_NO_HANDLE);
    }
    EXPECT(ferretgold_object_insert_pinned(cache, &key, &deleted, 7, 9, FERRETGOLD_LOW, NULL,
                                           &handle), FERRETGOLD_OK);
    EXPECT(ferretgold_object_pin_at(cache, 0, 0, &none), FERRETGOLD_NO_CLIENT);
    EXPECT(ferretgold_object_erase(cache, &key, NULL), FERRETGOLD_NO_CLIENT);
    EXPECT(ferretgold_object_collect(cache), FERRETGOLD_OK);
    EXPECT(ferretgold_object_close(cache), FERRETGOLD_CLIENTS_OUT);
    EXPECT(none == NULL, true);
    sem_post(&it.go);
    end(&it);
    EXPECT(ferretgold_object_close(cache), FERRETGOLD_HANDLES_OUT);
    EXPECT(released(cache, handle), true);
    EXPECT(atomic_load(&deleted), 3);
    EXPECT(ferretgold_object_close(cache), FERRETGOLD_OK);
}

/* ---- Caches that come and go under threads that live ----------------------------------------- */

static ferretgold_object_cache *caches[CACHES];
static pthread_barrier_t meeting;

/* Uses each cache between two meetings, then all of them at once. */
static void *live(void *argument) {
    const uint64_t number = *(const uint64_t *)argument;
    for (unsigned k = 0; k < CACHES + 1; k++) {
        (void)pthread_barrier_wait(&meeting);
        for (unsigned n = 0; n < (k < CACHES ? 1 : 4 * CACHES); n++) {
            ferretgold_object_cache *cache = caches[k < CACHES ? 0 : n % CACHES];
            insert(cache, number);
            (void)released(cache, held(cache, number));
            erase(cache, number);
        }
        (void)pthread_barrier_wait(&meeting);
    }
    (void)pthread_barrier_wait(&meeting);
    return NULL;
}

/* Opens caches, lets the threads use them, and closes them. */
static void open_and_close(const ferretgold_object_config *config, unsigned many) {
    atomic_ulong deleted = 0;
    const size_t blocks = heap_blocks;
    for (unsigned k = 0; k < many; k++) {
        caches[k] = opened(config, count, &deleted);
    }
    (void)pthread_barrier_wait(&meeting);
    (void)pthread_barrier_wait(&meeting);
    EXPECT(atomic_load(&deleted), many == 1 ? LIVING : 4 * LIVING * CACHES);
    for (unsigned k = 0; k < many; k++) {
        EXPECT(ferretgold_object_close(caches[k]), FERRETGOLD_OK);
    }
    EXPECT(heap_blocks, blocks);
}

static void coming_and_going(void) {
    pthread_t threads[LIVING];
    uint64_t numbers[LIVING];
    ferretgold_object_config config = small_cache();
    config.slots = 64;
    config.clients = LIVING;
    EXPECT(pthread_barrier_init(&meeting, NULL, LIVING + 1), 0);
    for (unsigned k = 0; k < LIVING; k++) {
        numbers[k] = k;
        EXPECT(pthread_create(&threads[k], NULL, live, &numbers[k]), 0);
    }
    for (unsigned k = 0; k < CACHES; k++) {
        open_and_close(&config, 1);
    }
    open_and_close(&config, CACHES);
    (void)pthread_barrier_wait(&meeting);
    for (unsigned k = 0; k < LIVING; k++) {
        EXPECT(pthread_join(threads[k], NULL), 0);
    }
    EXPECT(pthread_barrier_destroy(&meeting), 0);
}

/* ---- Eight threads at once ------------------------------------------------------------------- */

/* Where an object is: the caller's before it is inserted, and again where it isn't placed. */
enum { OWN, INSERTED, BACK, CANARY = 0x5a17 };

/* Relaxed, or plain: so a sanitizer finds whether the cache alone keeps who deletes one from who holds
 * it. */
typedef struct object {
    atomic_ushort held;
    atomic_uchar state;
    uint16_t key;
    uint16_t canary; /* of the key, while it is inserted */
} object;

typedef struct worker {
    ferretgold_object_cache *cache;
    uint64_t state;
    unsigned long operations;
    object *next, *last;
    const ferretgold_object_handle *handles[HELD + 2]; /* two more from a deleter */
    unsigned holds;
    unsigned long inserted, refused, alone, back, elsewhere, wrong;
    bool deletes;
} worker;

static _Thread_local worker *self;

/* Handles that threads leave to one another. */
static _Atomic(const ferretgold_object_handle *) mail[MAIL];

static uint64_t drawn(worker *it, uint64_t below) {
    it->state ^= it->state << 13;
    it->state ^= it->state >> 7;
    it->state ^= it->state << 17;
    return (it->state >> 20) % below;
}

static unsigned state_of(const object *one) {
    return atomic_load_explicit(&one->state, memory_order_relaxed);
}

/* An object goes from one state to another: how many faults that is. */
static unsigned long goes(object *one, unsigned char from, unsigned char to) {
    return atomic_exchange_explicit(&one->state, to, memory_order_relaxed) != from;
}

static bool is_as_inserted(const object *one, const ferretgold_key *key, uint16_t kind) {
    const uint16_t its = one->key;
    return state_of(one) == INSERTED && one->canary == (CANARY ^ its) && key->w0 == its
           && key->w1 == 5 && kind == (uint16_t)(3 * its);
}

static void keep(worker *it, const ferretgold_object_handle *handle) {
    object *one = handle->object;
    atomic_fetch_add_explicit(&one->held, 1, memory_order_relaxed);
    it->wrong += !is_as_inserted(one, &handle->key, handle->kind);
    it->wrong += handle->charge != 1 + handle->key.w0 % 8;
    it->handles[it->holds] = handle;
    it->holds += 1;
}

static void give_back(worker *it, const ferretgold_object_handle *handle) {
    object *one = handle->object;
    it->wrong += !is_as_inserted(one, &handle->key, handle->kind);
    it->wrong += atomic_fetch_sub_explicit(&one->held, 1, memory_order_relaxed) == 0;
    it->wrong += ferretgold_object_release(it->cache, handle, drawn(it, 2) == 0, drawn(it, 4) == 0,
                                           NULL) != FERRETGOLD_OK;
}

static void look_up(worker *it) {
    const ferretgold_key key = key_of(drawn(it, 1 + drawn(it, KEYS)));
    const ferretgold_object_handle *handle = NULL;
    const ferretgold_status status = ferretgold_object_lookup(it->cache, &key, &handle);
    it->wrong += status != FERRETGOLD_OK && status != FERRETGOLD_MISS
                 && status != FERRETGOLD_HANDLES_FULL;
    if (status == FERRETGOLD_OK) {
        it->wrong += handle->key.w0 != key.w0;
        keep(it, handle);
        if (it->holds < HELD && drawn(it, 4) == 0) {
            it->wrong += ferretgold_object_ref(it->cache, handle) != FERRETGOLD_OK;
            keep(it, handle);
        }
    }
}

static void erase_one(worker *it) {
    const ferretgold_key key = key_of(drawn(it, KEYS));
    const ferretgold_status status = ferretgold_object_erase(it->cache, &key, NULL);
    it->wrong += status != FERRETGOLD_OK && status != FERRETGOLD_NO_CLIENT;
}

/* Inserts the next object: whether it is the cache's then. */
static bool insert_next(worker *it) {
    object *one = it->next++;
    const ferretgold_key key = key_of(drawn(it, KEYS));
    const uint64_t way = drawn(it, 4);
    const bool pinned = it->holds < HELD && way == 0;
    const ferretgold_priority priority = (ferretgold_priority)drawn(it, 3);
    const uint32_t charge = 1 + (uint32_t)(key.w0 % 8);
    const uint16_t kind = (uint16_t)(3 * key.w0);
    const ferretgold_object_handle *handle = NULL;
    ferretgold_inserted inserted = FERRETGOLD_DROPPED;
    one->key = (uint16_t)key.w0;
    one->canary = (uint16_t)(CANARY ^ key.w0);
    it->wrong += goes(one, OWN, INSERTED);
    const ferretgold_status status =
        way < 2 ? ferretgold_object_insert_pinned(it->cache, &key, one, kind, charge, priority,
                                                  &inserted, pinned ? &handle : NULL)
                : ferretgold_object_insert(it->cache, &key, one, kind, charge, priority, &inserted);
    if (status != FERRETGOLD_OK || inserted == FERRETGOLD_DROPPED) {
        it->wrong += goes(one, INSERTED, OWN);
        return false;
    }
    it->alone += inserted == FERRETGOLD_STANDALONE;
    if (pinned) {
        keep(it, handle);
    }
    return true;
}

static void insert_one(worker *it) {
    if (it->next < it->last) {
        const bool has = insert_next(it);
        it->inserted += has;
        it->refused += !has;
    }
}

/* Leaves one handle to others, and gives back one that another thread left. */
static void exchange(worker *it) {
    it->holds -= 1;
    const ferretgold_object_handle *handle =
        atomic_exchange(&mail[drawn(it, MAIL)], it->handles[it->holds]);
    if (handle != NULL) {
        it->elsewhere += 1;
        give_back(it, handle);
    }
}

/* Calls the cache from a deleter, and holds as many handles then as before. */
static void come_back(worker *it) {
    const unsigned holds = it->holds;
    const uint64_t what = drawn(it, 16);
    if (what == 0) {
        erase_one(it);
    } else if (what == 1) {
        insert_one(it);
    } else if (what == 2) {
        look_up(it);
    }
    while (it->holds > holds) {
        exchange(it);
    }
}

/* Checks the object, and may call the cache. */
static void delete_one(void *context, const ferretgold_key *key, void *deleted, uint16_t kind) {
    worker *it = self;
    object *one = deleted;
    (void)context;
    it->wrong += it->deletes;
    it->wrong += !is_as_inserted(one, key, kind);
    it->wrong += atomic_load_explicit(&one->held, memory_order_relaxed) != 0;
    it->wrong += goes(one, INSERTED, BACK);
    one->canary = 0;
    it->back += 1;
    if (it->operations > 0) {
        it->deletes = true;
        come_back(it);
        it->deletes = false;
    }
}

static void walk_some(worker *it) {
    uint32_t slot = (uint32_t)drawn(it, 130);
    for (unsigned k = 0; k < 8 && it->holds < HELD; k++, slot++) {
        const ferretgold_object_handle *handle = NULL;
        const uint32_t shard = (uint32_t)drawn(it, 2);
        if (ferretgold_object_pin_at(it->cache, shard, slot, &handle) == FERRETGOLD_OK) {
            keep(it, handle);
        }
    }
}

static void *work(void *argument) {
    worker *it = self = argument;
    for (; it->operations > 0; it->operations--) {
        const uint64_t what = drawn(it, 16);
        if (what < 5) {
            insert_one(it);
        } else if (what < 10 && it->holds < HELD) {
            look_up(it);
        } else if (what < 13 && it->holds > 0) {
            exchange(it);
        } else if (what < 15 && it->holds > 0) {
            it->holds -= 1;
            give_back(it, it->handles[it->holds]);
        } else if (what == 15 && it->operations % 4 == 0) {
            walk_some(it);
        } else if (what == 15) {
            erase_one(it);
        }
    }
    while (it->holds > 0) {
        it->holds -= 1;
        give_back(it, it->handles[it->holds]);
    }
    return NULL;
}

/* What a worker did goes to the sum. */
static void add(worker *sum, const worker *it) {
    sum->inserted += it->inserted;
    sum->refused += it->refused;
    sum->alone += it->alone;
    sum->back += it->back;
    sum->elsewhere += it->elsewhere;
    sum->wrong += it->wrong;
}

/* Gives back what is left, closes the cache, and compares. */
static void finish(worker *sum, object *objects, size_t many) {
    self = sum;
    for (unsigned k = 0; k < MAIL; k++) {
        const ferretgold_object_handle *handle = atomic_exchange(&mail[k], NULL);
        if (handle != NULL) {
            give_back(sum, handle);
        }
    }
    heap_left = SIZE_MAX;
    EXPECT(ferretgold_object_close(sum->cache), FERRETGOLD_OK);
    EXPECT(sum->wrong, 0);
    EXPECT(sum->back, sum->inserted);
    for (size_t k = 0; k < many; k++) {
        sum->back -= state_of(&objects[k]) == BACK;
        EXPECT(state_of(&objects[k]) == INSERTED, false);
        atomic_store(&objects[k].state, OWN);
    }
    EXPECT(sum->back, 0);
}

static void at_once(uint32_t clients, uint32_t handles, bool strict, unsigned long operations) {
    static worker workers[THREADS];
    static worker sum;
    const size_t each = operations / ROUNDS / THREADS;
    const size_t blocks = heap_blocks;
    ferretgold_object_config config = small_cache();
    static object objects[MOST_OPERATIONS / ROUNDS];
    pthread_t threads[THREADS];
    config.slots = 128;
    config.shards = 2;
    config.clients = clients;
    config.handles = handles;
    config.capacity = 400;
    config.strict = strict;
    sum = (worker){.cache = opened(&config, delete_one, NULL), .state = 9};
    heap_left = 0; /* no call asks for memory */
    for (size_t k = 0; k < THREADS; k++) {
        workers[k] = (worker){.cache = sum.cache, .operations = each};
        workers[k].state = UINT64_C(0x9e3779b97f4a7c15) * (k + 1) + clients;
        workers[k].next = objects + each * k;
        workers[k].last = objects + each * (k + 1);
        EXPECT(pthread_create(&threads[k], NULL, work, &workers[k]), 0);
    }
    for (size_t k = 0; k < THREADS; k++) {
        EXPECT(pthread_join(threads[k], NULL), 0);
        add(&sum, &workers[k]);
    }
    finish(&sum, objects, each * THREADS);
    EXPECT(heap_blocks, blocks);
    /* A few operations may go without one of these. */
    EXPECT(operations < 100000 || (sum.elsewhere > 0 && sum.refused > 0 && sum.alone > 0), true);
    printf("object: %u clients of %u handles, strict %d: %lu were the cache's, %lu of them stood "
           "alone, %lu were refused, %lu handles given back elsewhere\n", clients, handles, strict,
           sum.inserted, sum.alone, sum.refused, sum.elsewhere);
}

void object_threads(unsigned long operations) {
    given_back_elsewhere();
    sleeping(false, begin_walk);
    sleeping(true, ferretgold_object_collect);
    sleeping(false, tell_usage);
    ending();
    nowhere();
    coming_and_going();
    at_once(THREADS + 1, 2 * HELD, false, operations);
    at_once(3, 2 * HELD, true, operations);
    at_once(3 * THREADS, 2, false, operations); /* threads change their clients */
    at_once(THREADS - 1, 3, true, operations);
}
