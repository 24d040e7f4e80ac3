/* What the files of a cache of objects share: its clients, the threads that name them, and the
 * records that handles point to. */
#ifndef OBJECT_H
#define OBJECT_H

#include "ferretgold_object.h"
#include "ferretgold_raw.h"
#include "heap.h"

#include <stdatomic.h>

/* Conditions and functions off the usual way, and functions on it. */
#define RARELY(what) __builtin_expect(!!(what), 0)
#define SLOWLY __attribute__((noinline, cold))
#define QUICKLY __attribute__((always_inline)) static inline
#define APART __attribute__((noinline))

/* What a handle points to: one cache line of its client, in the place of the proved handle's index.
 * It is filled while the client has it, and then read by any thread, until the proved handle is
 * given back. On the queue of what other threads gave back the next record stands in place of the
 * object. */
typedef struct record {
    _Alignas(LINE) ferretgold_object_handle shows;
    ferretgold_handle handle; /* the proved one */
    atomic_uint more;         /* references beside the first; GIVEN_BACK once that ended, too */
    _Atomic(uint16_t) depth;  /* how many are on the queue with this one; of a spare one the next */
    bool useful;              /* how it was given back */
    bool erase_if_last;
} record;

_Static_assert(sizeof(record) == LINE, "a record is one line");

#define GIVEN_BACK UINT32_MAX

/* In place of a client's number in a record that stands for an object of no client: it stands
 * alone, inserted where no client was to be had. */
#define NOWHERE UINT32_MAX

/* A client. One thread names it at most, and works through it while nobody else has claimed it. */
typedef struct object_client {
    _Alignas(LINE) ferretgold_object session; /* the proved library's */
    ferretgold_object_cache *cache;
    record *records;                /* one for each handle */
    size_t size;                    /* of these, in bytes */
    _Atomic(record *) backlog;      /* taken off the queue, and not given back yet */
    _Atomic(uint64_t) claim;        /* the thread that names it, and whether somebody claims it */
    atomic_bool inside;             /* its thread is in a call: written by that thread */
    bool untaken;                   /* something may be on the proved list */
    bool freed;                     /* what a proved release told; false between calls */
    atomic_bool used;               /* what the checking library knows of it */
    uint32_t number;
    _Alignas(LINE) ferretgold_counts counts; /* written by who uses it, and read by any thread */
    ferretgold_held_object held;             /* what a look-up that began at once looks for, and finds */
    _Alignas(LINE) _Atomic(record *) queue;  /* of what other threads gave back */
} object_client;

/* The number of the thread that names a client stands above this bit, by which another one claims
 * it. */
enum { NOBODY = 0, CLAIMED = 1 };

struct ferretgold_object_cache {
    _Alignas(LINE) uint64_t life; /* a number that no other cache of the process has */
    ptrdiff_t home;               /* of the cell where a thread looks for it, from its base */
    object_client *client;
    uint32_t number; /* the proved cache's, which its handles have */
    ferretgold_deleter deleter;
    void *context;
    ferretgold_object_config config;
    ferretgold_object cache; /* the proved library's */
    ferretgold_object left;  /* the place for what is left when it is closed */
    struct owned *owned;     /* what the checking library knows of it */
    record *spare;           /* as many as clients */
    _Alignas(LINE) _Atomic(uint64_t) spares; /* the first not in use, from 1, and a count */
    ferretgold_counts nowhere;               /* of calls for which no client was to be had */
};

/* What a thread knows of a cache. Where it is ready, `in_use` and `depth` are as the next call has them
 * that begins at once. */
typedef struct object_cell {
    uint64_t life;         /* of the cache; 0 if this cell is free */
    uint64_t ready;        /* the same between calls, if its client has no backlog; else 0 */
    object_client *client; /* that the thread names; null if it names none */
    object_client *in_use; /* by its call; null if that has none */
    record *alone;         /* objects of no client that are to be deleted */
    uint64_t token;        /* by which the thread names the client: as long as what it is compared with */
    uint32_t depth;        /* unless ready, how many calls it is in: more than one from a deleter */
} object_cell;

enum { CELLS = 4 };

/* What a thread knows of caches. It allocates nothing, in a library that is loaded late either. */
typedef struct object_thread {
    object_cell cell[CELLS];
    uint64_t token;  /* the number by which it names clients */
    uint32_t cursor; /* where it looks for a client to borrow */
    uint32_t turn;   /* which cell goes to another cache next */
} object_thread;

/* Where its thread finds that: at one distance from the thread pointer, which saves a load in each call;
 * in a library for loaders that keep no room for what is loaded late, where the loader says. */
#ifdef FERRETGOLD_LATE
#define THREAD_MODEL
#define THREAD_BASE ((char *)&object_self)
#else
#define THREAD_MODEL __attribute__((tls_model("initial-exec")))
#define THREAD_BASE ((char *)__builtin_thread_pointer())
#endif
extern _Thread_local object_thread object_self THREAD_MODEL;

/* ---- object_clients.c ------------------------------------------------------------------------ */

/* Tells the system that clients will be claimed: when a cache is opened. */
void claims_begin(void);

/* The cell of a cache that isn't in its home; null if each is in use by calls on other caches. */
object_cell *cell_found(const ferretgold_object_cache *cache);

/* Finds a client for a thread's call whose own one can't serve. Whether there was one. */
bool client_found(ferretgold_object_cache *cache, object_cell *it);

/* Goes on with another client in a call whose client is full. Whether there was one. */
bool client_changed(ferretgold_object_cache *cache, object_cell *it);

/* Claims a client that is in no call. Whether it did. */
bool client_claimed(object_client *client);
void client_unclaimed(object_client *client);

/* Pushes a record on its client's queue: how many are on it then. */
uint32_t record_pushed(object_client *client, record *it, bool useful, bool erase_if_last);

/* Gives back at most so many handles of those that other threads gave back, and runs no deleter.
 * Whether there were as many. */
bool records_given_back(object_client *client, uint32_t most);

/* A spare record, if there is one; and it goes back. */
record *spare_taken(ferretgold_object_cache *cache);
void spare_given_back(ferretgold_object_cache *cache, record *it);

/* ---- object.c -------------------------------------------------------------------------------- */

/* Gives back all handles that other threads gave back to the client of a call, and runs deleters. */
void give_back_all(object_cell *it);

/* ---- object_owned.c, of the checking library ------------------------------------------------- */

#ifdef FERRETGOLD_CHECK
/* What a cache has to know of objects that may stand in it once; null if memory is refused. */
struct owned *owned_made(const ferretgold_object_config *config);
void owned_kind(struct owned *it, uint16_t kind);
/* An object is to be inserted: the program ends if it stands already. */
void owned_begins(struct owned *it, const void *object, uint16_t kind, const char *call);
void owned_ends(struct owned *it, const void *object, uint16_t kind);
void owned_freed(struct owned *it);
/* A client is used: the program ends if it is already. */
void owned_use(atomic_bool *used, uint32_t number);
#else
#define owned_begins(owned, object, kind, call) ((void)0)
#define owned_ends(owned, object, kind) ((void)0)
#endif

/* Runs the deleter of an object that was freed. */
static inline void delete_object(ferretgold_object_cache *cache, const ferretgold_key *key,
                                 const ferretgold_object_value *value) {
    void *object = (void *)(uintptr_t)value->address;
    owned_ends(cache->owned, object, value->kind);
    cache->deleter(cache->context, key, object, value->kind);
}

/* ---- What the checking library looks at in clients ------------------------------------------- */

/* A call begins to use a client: the program ends if another one does. */
static inline void client_used(object_client *client) {
#ifdef FERRETGOLD_CHECK
    owned_use(&client->used, client->number);
#endif
    (void)client;
}

static inline void client_unused(object_client *client) {
#ifdef FERRETGOLD_CHECK
    atomic_store(&client->used, false);
#endif
    (void)client;
}

/* ---- Entering a cache and leaving it --------------------------------------------------------- */

/* Whether something waits to be given back: taken off the queue already, or there, too. */
static inline bool has_backlog(object_client *client) {
    return atomic_load_explicit(&client->backlog, memory_order_relaxed) != NULL;
}

static inline bool has_returned(object_client *client) {
    return has_backlog(client)
           || atomic_load_explicit(&client->queue, memory_order_relaxed) != NULL;
}

/* A thread begins to use the client that it names, unless that is claimed. Who claims it makes all
 * threads pass a barrier before it looks at `inside`: so a plain store and a load do here. */
static inline bool client_entered(object_client *client, const object_cell *it) {
    atomic_store_explicit(&client->inside, true, memory_order_relaxed);
    atomic_signal_fence(memory_order_seq_cst);
    if (RARELY(atomic_load_explicit(&client->claim, memory_order_acquire) != it->token)) {
        atomic_store_explicit(&client->inside, false, memory_order_release);
        return false;
    }
    client_used(client);
    return true;
}

static inline void client_left(object_client *client) {
    client_unused(client);
    atomic_store_explicit(&client->inside, false, memory_order_release);
}

/* The same for a call that may run deleters, or change its client. */
static inline bool own_entered(object_cell *it) {
    it->in_use = it->client;
    return client_entered(it->client, it);
}

/* Whether the thread is in a call of a cell's cache. */
static inline bool is_in_call(const object_cell *it) {
    return it->ready == 0 && it->depth > 0;
}

static inline object_cell *cell_at_home(const ferretgold_object_cache *cache) {
    return (object_cell *)(void *)(THREAD_BASE + cache->home);
}

static inline object_cell *cell_of(const ferretgold_object_cache *cache) {
    object_cell *it = cell_at_home(cache);
    return RARELY(it->life != cache->life) ? cell_found(cache) : it;
}

#endif
