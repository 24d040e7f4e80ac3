/*
 * ferretgold.h - a block cache of fixed slots for many threads, without locks.
 *
 * A cache has keys of 16 bytes, values of at most 4,096 bytes, charges and priorities. Its table is
 * allocated when it is opened. Each call on a client makes at most a stated number of atomic steps,
 * whatever other threads do. What the library does is proved, except a little C around it that is
 * tested (SECURITY.md); docs/GUIDE.md says how to use it and how to choose the sizes. The header is
 * for C11, C++11 and later; libferretgold.a exports its functions, also those that are inline here.
 * ferretgold_closed.h reads what is left of a cache, with ferretgold_image.h one begins with
 * entries, and ferretgold_object.h has caches of pointers in place of bytes, and of bytes of any
 * length.
 *
 *     ferretgold_config config;
 *     ferretgold_cache *cache;
 *     ferretgold_client *client;
 *     ferretgold_config_for(66 << 20, 4096, 2, &config, NULL);   66 MiB, blocks of 4 KiB, 2 threads
 *     if (ferretgold_open(&config, &cache) != FERRETGOLD_OK) ...
 *     if (ferretgold_client_open(cache, &client) != FERRETGOLD_OK) ...
 *     ... each thread works with a client of its own ...
 *     ferretgold_client_close(cache, client);
 *     ferretgold_close(cache, &totals);
 *
 * OBJECTS AND THREADS
 *   A cache is opened with all its clients. A thread works through a client that
 *   ferretgold_client_open gave out, and gives it back by ferretgold_client_close.
 *   - A client is used by one thread at a time. It may go from thread to thread, if a lock, a
 *     thread's start or join, or a sequentially consistent atomic orders the calls.
 *   - All clients of a cache may be used at the same time.
 *   - All threads may call ferretgold_client_open and _client_close at once, and what reads a
 *     cache's sizes and counts. None of these waits or allocates, so a thread may take a client for
 *     one operation, and an engine with more threads than clients needs no lock. ferretgold_close
 *     comes after all other calls on the cache.
 *   - A client that was given back is refused by NO_CLIENT while it is idle. Once it is out again,
 *     an old pointer to it is the new owner's client.
 *   - No call is made from a signal handler, or from a child that a process with threads forked.
 *
 * HANDLES
 *   A handle is a reference on an entry: while it is held, the entry keeps its key and its value.
 *   It is a small value, copied freely. One that was released, or that another client or another
 *   cache gave, is refused by FERRETGOLD_NO_HANDLE, and stays so: no serial of a client comes
 *   twice, nor does a cache's number, of 2^32 - 1. If a process has two copies of the library, one
 *   in a plugin, say, each numbers its caches from a drawn number on: where both open n caches, two
 *   of these have one number by a chance of 2n of 2^32.
 *
 * REFUSALS
 *   A call that returns FERRETGOLD_OK did what it says. A call that refuses changed nothing: no
 *   object, and nothing that a pointer of the caller's points to, except where its comment says so.
 *   The first refusal that is due is returned, in the order in which each call lists them; before
 *   them all comes FERRETGOLD_NULL, if a pointer is null that may not be, and then, unless the call
 *   lists it later, NO_CLIENT, if the client is idle.
 *
 * NOT CHECKED
 *   No call can tell that a pointer dangles (to a cache that was closed or its clients, or to
 *   fewer bytes than were said), that an output overlaps another argument, that a bool is neither 0
 *   nor 1 (set each field of a config), or that two threads are in one client. Then behaviour is
 *   undefined. libferretgold_check.a, linked in place of libferretgold.a, ends the program when two
 *   threads meet in one client, and names the client and both calls. Code for it is compiled with
 *   FERRETGOLD_CHECK, so that no call is inline; without that it doesn't link.
 *
 * COSTS
 *   L stands for the slots of a shard, W for the payload words of a slot, S for the shards. Bounds
 *   are the most atomic steps on the cache's words. Calls neither allocate nor free, except where
 *   it is said; what malloc and free cost there, which may wait for other threads, comes on top.
 *
 * VERSIONS
 *   Of a version MAJOR.MINOR.PATCH, with one MAJOR and, while that is 0, one MINOR:
 *   - A program that compiled goes on compiling. Functions and statuses may be added, so a switch
 *     over statuses has a default; fields are added at the end of ferretgold_config, where 0 stands
 *     for what was before.
 *   - A program that was linked with libferretgold.so goes on working with a later one: its soname
 *     has these numbers. Functions keep their parameters, structs their layout, enumerators their
 *     numbers, and the library takes each size that ferretgold_config had. Calls that fill one fill
 *     the 48 bytes that it has now.
 *   A program that was compiled with the header of another MAJOR.MINOR doesn't link: what opens a
 *   cache is linked by a name that has these numbers, from the Rust crate too, and inline calls use
 *   one. A binding that asks for ferretgold_open by its plain name gets it.
 *   A PATCH changes neither. libferretgold.so exports the functions of this header, of _closed.h,
 *   _image.h and _object.h, and of ferretgold_raw.h those that ferretgold_inline.h calls.
 */
#ifndef FERRETGOLD_H
#define FERRETGOLD_H

/* The version of this header; ferretgold_version returns that of the library. */
#define FERRETGOLD_VERSION_MAJOR 0
#define FERRETGOLD_VERSION_MINOR 1
#define FERRETGOLD_VERSION_PATCH 0
#define FERRETGOLD_VERSION "0.1.0"

/* A name that has these numbers in it: name_MAJOR_MINOR. */
#define FERRETGOLD_OF_VERSION(name) \
    FERRETGOLD_NUMBERED(name, FERRETGOLD_VERSION_MAJOR, FERRETGOLD_VERSION_MINOR)
#define FERRETGOLD_NUMBERED(name, major, minor) FERRETGOLD_JOINED(name, major, minor)
#define FERRETGOLD_JOINED(name, major, minor) name##_##major##_##minor

/* How a function is linked: by such a name, which only a library of this version has. */
#define FERRETGOLD_LINKED(name) __asm__(FERRETGOLD_TEXT(FERRETGOLD_OF_VERSION(name)))
#define FERRETGOLD_TEXT(name) FERRETGOLD_QUOTED(name)
#define FERRETGOLD_QUOTED(name) #name

#include <stdbool.h>
#include <stddef.h>
#include <stdint.h>

/* How the calls are declared that ferretgold_inline.h defines. */
#ifndef FERRETGOLD_INLINE
#ifdef FERRETGOLD_CHECK
#define FERRETGOLD_INLINE
#else
#define FERRETGOLD_INLINE inline
#endif
#endif

#ifdef __cplusplus
extern "C" {
#endif

/* What a call returns. */
typedef enum ferretgold_status {
    FERRETGOLD_OK = 0,
    /* Nothing of the key was found, the slot has no entry, or a walk is at its end. */
    FERRETGOLD_MISS = 1,

    /* A pointer is null that may not be. */
    FERRETGOLD_NULL = 16,
    /* The handle is none that the client holds. */
    FERRETGOLD_NO_HANDLE = 17,
    /* The charge is 0. */
    FERRETGOLD_NO_CHARGE = 18,
    /* The value has more than 8 * room bytes. */
    FERRETGOLD_TOO_LONG = 19,
    /* The buffer has fewer bytes than the value. */
    FERRETGOLD_TOO_SHORT = 20,
    /* There is no such priority. */
    FERRETGOLD_BAD_PRIORITY = 21,
    /* There is no such shard, or no such slot. */
    FERRETGOLD_OUT_OF_RANGE = 22,
    /* The client holds as many handles as it may. */
    FERRETGOLD_HANDLES_FULL = 23,
    /* The client has used all its serials. */
    FERRETGOLD_SPENT = 24,
    /* The charge is above the capacity of a shard, which is strict. */
    FERRETGOLD_TOO_LARGE = 25,
    /* Strict only: evictions freed too little of the charge. They stay made; a serial is used. */
    FERRETGOLD_CAPACITY_FULL = 26,
    /* The same, where the shard was full, and evictions freed no slot. */
    FERRETGOLD_OCCUPANCY_FULL = 27,
    /* Memory was refused. */
    FERRETGOLD_OUT_OF_MEMORY = 28,
    /* A field of the configuration is out of its range. */
    FERRETGOLD_BAD_SLOTS = 29,
    FERRETGOLD_BAD_ROOM = 30,
    FERRETGOLD_BAD_CLIENTS = 31,
    FERRETGOLD_BAD_HANDLES = 32,
    FERRETGOLD_BAD_SHARDS = 33,
    FERRETGOLD_BAD_CAPACITY = 34,
    FERRETGOLD_BAD_SERIALS = 35,
    /* No client of the cache is idle; or this one is, and so not the caller's. */
    FERRETGOLD_NO_CLIENT = 36,
    /* The client is one of another cache. */
    FERRETGOLD_OTHER_CACHE = 37,
    /* The client holds handles. */
    FERRETGOLD_HANDLES_OUT = 38,
    /* Clients of the cache are out. */
    FERRETGOLD_CLIENTS_OUT = 39,
    /* The configuration has a size that this library doesn't know. */
    FERRETGOLD_BAD_SIZE = 40,
    /* The system has no number to draw for a seed yet, as early at its start. */
    FERRETGOLD_NO_SEED = 45,
    /* All clients are back, and the proved library can't tell that nobody else has the cache: of
     * proved calls only, and not known to come. */
    FERRETGOLD_SHARED = 46
} ferretgold_status;

/* How many visits of the clock a new entry that nobody looks up survives: 3, 2 or 1. */
typedef enum ferretgold_priority {
    FERRETGOLD_HIGH = 0,
    FERRETGOLD_LOW = 1,
    FERRETGOLD_BOTTOM = 2
} ferretgold_priority;

/* What came of an insertion. */
typedef enum ferretgold_inserted {
    /* The entry is in the table. */
    FERRETGOLD_PLACED = 0,
    /* There was no place for it: as if the entry had been placed and evicted at once. Of insertions
     * without a handle only. */
    FERRETGOLD_DROPPED = 1,
    /* The entry is in no table, and goes with its last handle. Of those with one only. */
    FERRETGOLD_STANDALONE = 2,
    /* An entry of the key was met, which is used and keeps its value. Of ferretgold_insert only. */
    FERRETGOLD_THERE = 3
} ferretgold_inserted;

/* The most serials of a client: 2^54. */
#define FERRETGOLD_MOST_SERIALS UINT64_C(0x40000000000000)

/* In place of a seed: keys stay as they are. */
#define FERRETGOLD_UNSEEDED UINT64_MAX

/* How large a cache is, and how it behaves. */
typedef struct ferretgold_config {
    uint32_t slots;    /* of each shard: a power of two, 8 to 65,536 */
    uint32_t room;     /* payload words of 8 bytes in each slot: 1 to 512 */
    uint32_t clients;  /* 1 to 1,024 */
    uint32_t handles;  /* that a client may hold at once: 1 to 16,384 */
    uint32_t shards;   /* a power of two, 1 to 64 */
    bool strict;       /* whether each shard's charges stay within its part of the capacity, and
                          insertions may be refused */
    bool marks;        /* whether look-ups mark entries, for evicted_hit of the statistics */
    uint16_t size;     /* of this struct in bytes, as FERRETGOLD_CONFIG has it: a library that knows
                          fewer fields refuses it; 0 stands for 48 */
    uint64_t capacity; /* in charges, at most 2^40; each shard has an equal part, rounded up */
    uint64_t serials;  /* of each client: 1 to 2^54; an insertion uses one, and so does a handle that
                          ferretgold_lookup, _reref or _pin_at gives, or _get_part takes */
    uint64_t seed;     /* of the keys; 0: opening draws one, so that nobody knows it.
                          FERRETGOLD_UNSEEDED only if keys are spread already, as hashes are: keys
                          of blocks, say, are found five to twenty times slower so */
} ferretgold_config;

/* A configuration to begin with: 4,096 slots with room for 4,096 bytes each (17 MB), not strict,
 * 16 clients. Its seed is drawn. */
#define FERRETGOLD_CONFIG \
    {2048, 512, 16, 16, 2, false, false, sizeof(ferretgold_config), 11743232, \
     FERRETGOLD_MOST_SERIALS, 0}

/* A key of 16 bytes. */
typedef struct ferretgold_key {
    uint64_t w0;
    uint64_t w1;
} ferretgold_key;

/* A handle. Its fields are the library's: those of one that a call gave aren't all 0. */
typedef struct ferretgold_handle {
    size_t index;
    uint64_t serial;
    uint32_t client;
    uint32_t cache;
} ferretgold_handle;

/* What the calls of a client did on all shards. Counts saturate. */
typedef struct ferretgold_stats {
    uint64_t probes;      /* slots that were visited for a key */
    uint64_t boosts;      /* insertions that met their key */
    uint64_t evicted;     /* entries that evictions freed */
    uint64_t evicted_hit; /* those of them that were marked */
    uint64_t freed;       /* the charges of those that evictions freed */
    uint64_t turns;       /* turns of the clock's hand */
    uint64_t corrections; /* of words whose uses were near their end */
    uint64_t lost;        /* compare-exchanges that lost to another thread's step */
} ferretgold_stats;

/* What calls came to. Each insertion that isn't refused for its arguments is one of placed, there, dropped,
 * standalone and refused, and one of by_turns. */
typedef struct ferretgold_counts {
    uint64_t hits;         /* ferretgold_lookup, _get and _get_part that returned OK */
    uint64_t misses;       /* and all others: MISS, TOO_SHORT, HANDLES_FULL, SPENT */
    uint64_t placed;       /* insertions that were placed */
    uint64_t there;        /* that met an entry of their key: THERE, or STANDALONE */
    uint64_t dropped;      /* that found no place, or no empty slot, and were dropped */
    uint64_t standalone;   /* and that stand alone for that */
    uint64_t refused;      /* by HANDLES_FULL, SPENT, TOO_LARGE, CAPACITY_FULL, OCCUPANCY_FULL, OUT_OF_MEMORY */
    uint64_t evicted;      /* these five as in ferretgold_stats */
    uint64_t evicted_hit;
    uint64_t freed;
    uint64_t turns;
    uint64_t lost;
    uint64_t by_turns[16]; /* insertions by how many turns each took: [0] none, [k] at most 2^(k - 1)
                              and more than those before, [15] more */
} ferretgold_counts;

/* What was left of a cache that was closed: the charges of its entries in sum and their number, by
 * the books (usage, occupied) and slot by slot (slot_charges, slot_count). They are equal. */
typedef struct ferretgold_totals {
    uint64_t usage;
    uint64_t occupied;
    uint64_t slot_charges;
    uint64_t slot_count;
} ferretgold_totals;

/* A cache, and a client of one. */
typedef struct ferretgold_cache ferretgold_cache;
typedef struct ferretgold_client ferretgold_client;

/* ---- Sizes ----------------------------------------------------------------------------------- */

/*
 * How many bytes a cache of this configuration allocates:
 *     shards * (272 + slots * 8 * (7 + room)) + clients * (856 + 72 * shards + 104 * handles)
 *     + 64 * (clients / 64, rounded up) + 496
 * A shard's table, slots * 8 * (7 + room) + 96 of these, is rounded up to whole pages of 2 MiB from
 * 4 MiB on: it begins at one, and lies on such pages where the system gives them. ferretgold_open
 * needs one shard's table more for a while. 0 where ferretgold_config_check refuses.
 */
uint64_t ferretgold_memory(const ferretgold_config *config);

/* What came of a size: what a configuration takes of the bytes that were asked for, and what fits. */
typedef struct ferretgold_fit {
    uint64_t bytes;   /* that it takes, as ferretgold_memory says */
    uint64_t values;  /* bytes of values that fit, each as long as was asked for */
    uint64_t entries; /* that fit, as its capacity has it */
    uint64_t more;    /* bytes with which twice as many would fit; 0 if no number of bytes is enough */
    bool half;        /* whether it takes at least half of what was asked for */
} ferretgold_fit;

/*
 * Makes a configuration of at most so many bytes of memory, for values of at most `value` bytes and
 * as many threads at work: FERRETGOLD_CONFIG with as many slots as these bytes allow, a power of
 * two, and as capacity 70 of a hundred slots' bytes; a client for each thread, with 16 handles, or
 * fewer where all clients could hold more than a quarter of a shard; as many shards as threads,
 * rounded up to a power of two, but at most 64, none of fewer than 1,024 slots beside others, and
 * others where so more slots fit.
 *
 * As slots are a power of two, and each takes 56 bytes beside its value, a usual number of bytes may
 * leave almost half of itself unused, and small or very large ones more: `fit` says so, and what to
 * ask for instead. It may be null. The guide has a table.
 *
 * Refuses NULL; BAD_ROOM: the value has more than 4,096 bytes; BAD_CLIENTS: threads are 0, or above
 * 1,024; BAD_SLOTS: 8 slots need more bytes.
 */
ferretgold_status ferretgold_config_for(uint64_t bytes, size_t value, uint32_t threads,
                                        ferretgold_config *config, ferretgold_fit *fit);

/* What to think over in a configuration, a bit each. */
typedef enum ferretgold_advice {
    /* Clients times handles are above a quarter of the entries that a shard may have, 84 for each
     * hundred slots: held entries may fill it, and insertions are dropped or refused then. */
    FERRETGOLD_MANY_HANDLES = 1,
    /* The capacity is above what all of these entries are charged: slots are full before that, and
     * insertions are dropped or refused, or evict, though the capacity has room. */
    FERRETGOLD_LARGE_CAPACITY = 2,
    /* It is below half of that: insertions evict or are refused while most slots are empty. */
    FERRETGOLD_SMALL_CAPACITY = 4,
    /* There are several shards of fewer than 1,024 slots: some fill well before others. */
    FERRETGOLD_SMALL_SHARDS = 8
} ferretgold_advice;

/*
 * What to think over in a configuration: the bits of ferretgold_advice in sum, 0 if there is nothing,
 * or where ferretgold_config_check refuses. The charge of an entry is taken to be 8 * room bytes, as
 * many as its value may have; or 1, where the capacity is at most one for each slot.
 */
uint32_t ferretgold_config_advice(const ferretgold_config *config);

/* One of these bits as a sentence; "unknown" if it is none. */
const char *ferretgold_advice_text(uint32_t advice);

/*
 * Whether a cache can be opened so, whatever the system gives: refuses what ferretgold_open
 * refuses, except NO_SEED and OUT_OF_MEMORY.
 */
ferretgold_status ferretgold_config_check(const ferretgold_config *config);

/* ---- Opening and closing --------------------------------------------------------------------- */

/*
 * Opens a cache with no entries, and with all its clients. None is out yet.
 *
 * Allocates the table and all clients (ferretgold_memory). Costs two stores for each word, and for a
 * seed that is drawn one call of getrandom, which doesn't wait.
 *
 * Refuses BAD_SIZE, BAD_SLOTS, BAD_ROOM, BAD_CLIENTS, BAD_HANDLES, BAD_SHARDS, BAD_CAPACITY,
 * BAD_SERIALS, then NO_SEED, if one is to be drawn, then OUT_OF_MEMORY. Nothing remains then.
 */
ferretgold_status ferretgold_open(const ferretgold_config *config, ferretgold_cache **cache)
    FERRETGOLD_LINKED(ferretgold_open);

/*
 * Gives out an idle client. It holds no handle, and has the serials left that it had, and its
 * statistics. One with no serials left goes out only if no other was found.
 *
 * Costs a few loads, a store and one atomic step; one more for each client that another thread took
 * first. Waits for nothing, and makes no atomic step on the cache's words.
 *
 * Refuses NO_CLIENT: this call found none idle.
 */
ferretgold_status ferretgold_client_open(ferretgold_cache *cache, ferretgold_client **client);

/*
 * Takes a client back, which is idle from then on: another thread may get it at once.
 *
 * Costs a few loads and stores and an atomic or, and no step on the cache's words.
 *
 * Refuses OTHER_CACHE; NO_CLIENT, if it is idle already; HANDLES_OUT: release them first. After a
 * refusal the client is as it was.
 */
ferretgold_status ferretgold_client_close(ferretgold_cache *cache, ferretgold_client *client);

/*
 * The same, and gives back each handle that the client still holds, with no use of its entry.
 *
 * Costs a look at each of its handles' places up to the last one held, and a release for each.
 *
 * Refuses OTHER_CACHE, NO_CLIENT.
 */
ferretgold_status ferretgold_client_close_releasing(ferretgold_cache *cache,
                                                    ferretgold_client *client);

/*
 * Ends a cache whose clients are all back, and returns what was left in it. Its pointer stands for
 * nothing from then on, nor do those of its clients, and all memory is freed. `totals` may be null.
 *
 * Costs at each shard a load for each client and two more, two for each slot, and one for each
 * entry that is left.
 *
 * Refuses CLIENTS_OUT. After a refusal the cache works on.
 */
ferretgold_status ferretgold_close(ferretgold_cache *cache, ferretgold_totals *totals);

/* The configuration that a cache was opened with, and in it the seed that was drawn: a cache that is
 * opened with this has each key at the same slots. */
ferretgold_status ferretgold_config_of(const ferretgold_cache *cache, ferretgold_config *config);

/* The most bytes of a value: 8 * room. 0 if `cache` is null. */
size_t ferretgold_value_limit(const ferretgold_cache *cache);

/*
 * What the calls of all clients came to, in sum, and of the client of this number, whoever has it. Any
 * thread may ask at any time, also while clients are at work. Each number is that of calls that had
 * returned at some moment of the reading, and none falls; it is exact where no call is under way. Only
 * what other calls than insertions lost counts from when their client asks for its statistics, or is
 * given back. It is no picture of one moment.
 *
 * Costs 28 loads for each client. For it each insertion asks twice what the client did at the key's shard.
 *
 * ferretgold_client_counts refuses OUT_OF_RANGE: no client of the cache has this number.
 */
ferretgold_status ferretgold_cache_counts(const ferretgold_cache *cache,
                                          ferretgold_counts *counts);
ferretgold_status ferretgold_client_counts(const ferretgold_cache *cache, uint32_t number,
                                           ferretgold_counts *counts);

/* ---- Getting and giving back handles --------------------------------------------------------- */

/*
 * Looks for a visible entry of the key. FERRETGOLD_OK: the client has a handle on it, and a serial
 * is used. FERRETGOLD_MISS: there was none that the client could see; nothing is changed except
 * the client's statistics.
 *
 * Never returns an entry that this client saw erased. A hit at the first probe costs a load, an add
 * and two loads. Bound: 7*L.
 *
 * Refuses HANDLES_FULL, SPENT; also if the key isn't there.
 */
FERRETGOLD_INLINE ferretgold_status ferretgold_lookup(ferretgold_client *client,
                                                      const ferretgold_key *key,
                                                      ferretgold_handle *handle);

/*
 * Gives one handle more on the very entry that a handle is on, also on a standalone one or an
 * erased one. Uses a serial.
 *
 * Costs an add; of a standalone entry no step. Bound: 2.
 *
 * Refuses NO_HANDLE, HANDLES_FULL, SPENT.
 */
FERRETGOLD_INLINE ferretgold_status ferretgold_reref(ferretgold_client *client,
                                                     ferretgold_handle handle,
                                                     ferretgold_handle *more);

/*
 * Gives a handle back: as a use of its entry if `useful`, which is what keeps entries that are
 * read. If it was the last reference, and the entry was erased or `erase_if_last` is set, one try
 * is made to free the entry. A standalone entry goes with its last handle, and its copy by free.
 * `freed` gets whether this call freed an entry; it may be null.
 *
 * Costs an add or a subtraction; if it frees, a few steps and one for each slot of the entry's
 * trail. Bound: L + 8.
 *
 * Refuses NO_HANDLE.
 */
FERRETGOLD_INLINE ferretgold_status ferretgold_release(ferretgold_client *client,
                                                       ferretgold_handle handle, bool useful,
                                                       bool erase_if_last, bool *freed);

/* ---- Inserting and erasing ------------------------------------------------------------------- */

/*
 * Inserts an entry of this key, value and charge, and keeps no handle on it. A place and the charge
 * are reserved in the key's shard first, which may evict others. `value` may be null if `length` is
 * 0, and `inserted` may be null.
 *
 * PLACED: the entry is in the table. THERE: an entry of the key was met first; it is used then, and
 * its value stays. DROPPED: the shard was full and no place was found, or none of L probes found an
 * empty slot. Uses a serial, also if CAPACITY_FULL or OCCUPANCY_FULL refuses it.
 *
 * Costs the reservation, for each probe what a look-up costs, and a store for each word of the
 * entry. Bound: (4*L + 25)*(3*L/4 + 1) + 8*L + W + 8.
 *
 * Refuses BAD_PRIORITY, NO_CHARGE, TOO_LONG, SPENT, TOO_LARGE; and if strict, after evictions
 * that stay made, CAPACITY_FULL, OCCUPANCY_FULL. These two, and DROPPED, may come though nobody
 * holds an entry; then a second try evicts more ("Try again" in the guide).
 */
ferretgold_status ferretgold_insert(ferretgold_client *client, const ferretgold_key *key,
                                    const void *value, size_t length, uint32_t charge,
                                    ferretgold_priority priority, ferretgold_inserted *inserted);

/*
 * The same, and gives a handle on the entry. STANDALONE, where ferretgold_insert answers THERE or
 * DROPPED: it isn't in the table; look-ups don't find it, its charge is in the usage, and it goes
 * with its last handle.
 *
 * Of what stands alone a copy is allocated by malloc, if it has bytes; nothing else is. Costs what
 * ferretgold_insert costs, and if no place was found two adds more.
 * Bound: (4*L + 25)*(3*L/4 + 1) + 8*L + W + 10.
 *
 * Refuses BAD_PRIORITY, NO_CHARGE, TOO_LONG, HANDLES_FULL, SPENT, then as ferretgold_insert, and last
 * OUT_OF_MEMORY: evictions stay made, a serial is used, charge and place are given back.
 */
ferretgold_status ferretgold_insert_pinned(ferretgold_client *client, const ferretgold_key *key,
                                           const void *value, size_t length, uint32_t charge,
                                           ferretgold_priority priority,
                                           ferretgold_inserted *inserted,
                                           ferretgold_handle *handle);

/*
 * Hides each visible entry of the key: no look-up finds them from then on. Makes one try to free
 * each of them that nobody holds, this client included. Those that are held stay until their last
 * release, and handles on them show what they showed; the clock frees one whose try failed.
 * `hidden` gets how many were hidden; it may be null.
 *
 * Costs for each probe what a look-up costs, and for each match what freeing costs.
 * Bound: (L + 14)*L + 2.
 */
ferretgold_status ferretgold_erase(ferretgold_client *client, const ferretgold_key *key,
                                   uint32_t *hidden);

/* ---- Reading. Calls by a handle refuse NO_HANDLE. -------------------------------------------- */

/* The key of the entry that a handle is on. Makes no atomic step. */
FERRETGOLD_INLINE ferretgold_status ferretgold_handle_key(ferretgold_client *client,
                                                          ferretgold_handle handle,
                                                          ferretgold_key *key);

/* How many bytes the value has. Costs a load; of a standalone entry none. Bound: 1. */
FERRETGOLD_INLINE ferretgold_status ferretgold_value_len(ferretgold_client *client,
                                                         ferretgold_handle handle, size_t *length);

/*
 * Copies the value to the front of a buffer of `capacity` bytes; `length` gets its length. The rest
 * of the buffer stays. `buffer` may be null if `capacity` is 0, and `length` may be null.
 *
 * Costs a load for the length, and one for each eight bytes; of a standalone entry a copy.
 * Bound: W + 1.
 *
 * Refuses NO_HANDLE; TOO_SHORT, and then `length` gets how many bytes the value has.
 */
FERRETGOLD_INLINE ferretgold_status ferretgold_read_value(ferretgold_client *client,
                                                          ferretgold_handle handle, void *buffer,
                                                          size_t capacity, size_t *length);

/* What a reading of a part gave: how many bytes are at the front of the buffer, and how many the
 * whole value has. */
typedef struct ferretgold_part {
    size_t given;
    size_t length;
} ferretgold_part;

/*
 * Copies bytes of the value, from an offset on, to the front of a buffer of `capacity` bytes: as many
 * as there are behind the offset, and as it has room for. Where the offset is at the value's end, or
 * past it, there are none. The rest of the buffer stays. `buffer` may be null if `capacity` is 0, and
 * `part` may be null.
 *
 * Costs a load for the length, and one for each word of eight bytes that has some of these; of a
 * standalone entry a copy. Bound: W + 1.
 */
FERRETGOLD_INLINE ferretgold_status ferretgold_read_part(ferretgold_client *client,
                                                         ferretgold_handle handle, size_t offset,
                                                         void *buffer, size_t capacity,
                                                         ferretgold_part *part);

/*
 * Reads the value of a visible entry of the key: what ferretgold_lookup, ferretgold_read_value and
 * ferretgold_release do together, in one call and with no handle. `buffer`, `capacity` and `length`
 * are as for ferretgold_read_value. With `useful` the reading is a use of the entry. It uses no
 * serial, and frees nothing.
 *
 * First it reads by loads alone, and changes no word of the cache: where the entry's uses are 3 and
 * more (one more is one that the clock can't see) or the reading is no use, where the cache doesn't
 * mark or the entry is marked, and where the value has at most 256 bytes. Else, and where the entry
 * goes meanwhile, it begins anew, and holds a reference for the time of the call.
 *
 * By loads alone it costs two at each slot that it visits, one more where that shows an entry, eight,
 * and one for each eight bytes; by a reference a look-up, a load for the length, one for each eight
 * bytes, and an add or a subtraction. Bound: 11 * L + 2 * W + 8.
 *
 * MISS: nothing of the key was found. Refuses TOO_SHORT: there is an entry, `length` gets how many
 * bytes its value has, and the buffer stays; with `useful` it was a use.
 */
FERRETGOLD_INLINE ferretgold_status ferretgold_get(ferretgold_client *client,
                                                   const ferretgold_key *key, void *buffer,
                                                   size_t capacity, bool useful, size_t *length);

/*
 * Reads a part of the value of a visible entry of the key: what ferretgold_lookup,
 * ferretgold_read_part and ferretgold_release, which isn't to erase, do together, in one call. It
 * takes a handle for the time of the call, which uses a serial. `offset`, `buffer`, `capacity` and
 * `part` are as for ferretgold_read_part. With `useful` the reading is a use of the entry.
 *
 * Costs what the three cost. Bound: 8*L + W + 9.
 *
 * MISS: nothing of the key was found; `buffer` and `part` stay. Refuses HANDLES_FULL, SPENT, as
 * ferretgold_lookup.
 */
ferretgold_status ferretgold_get_part(ferretgold_client *client, const ferretgold_key *key,
                                      size_t offset, void *buffer, size_t capacity, bool useful,
                                      ferretgold_part *part);

/* ---- Walks ----------------------------------------------------------------------------------- */

/* What is held at a slot: a handle on the entry there, and what its words say of it. */
typedef struct ferretgold_held_entry {
    ferretgold_handle handle;
    ferretgold_key key;
    uint64_t charge;
    uint32_t uses; /* its countdown then */
} ferretgold_held_entry;

/*
 * Gives a handle on the entry of a slot, if a visible one is there: for walks over a cache. MISS:
 * there is none, or no such slot. A serial is used. Marks, hits and misses stay, and so do uses, if
 * the handle is given back as no use.
 *
 * Costs a load, and where an entry is visible an add and four loads. Bound: 7.
 *
 * Refuses HANDLES_FULL, SPENT; also if the slot has no entry.
 */
ferretgold_status ferretgold_pin_at(ferretgold_client *client, uint32_t shard, uint32_t slot,
                                    ferretgold_held_entry *held);

/* Where a walk goes on: all 0 to begin one. Behind the last slot `shard` is the number of shards. */
typedef struct ferretgold_place {
    uint32_t shard;
    uint32_t slot;
} ferretgold_place;

/* What a walk calls for an entry while it holds that. It may make calls on the client, as to read
 * the value by the handle. Returns whether the walk's call goes on. */
typedef bool ferretgold_visit(void *context, const ferretgold_held_entry *held);

/*
 * Looks at the next slots of a walk, at most so many, while other threads work with the cache, and
 * visits each visible entry there: one that is visible from a walk's first call to its last exactly
 * once. `place` gets where the next call goes on. Uses, marks, hits and misses stay; each entry uses
 * a serial. OK if slots are left, also where `visit` ended the call; MISS at the end.
 *
 * Refuses HANDLES_FULL, SPENT, as ferretgold_pin_at does of a slot: the place is that slot's then.
 * Costs for each slot what that costs, and a release for each entry.
 */
ferretgold_status ferretgold_walk(ferretgold_client *client, ferretgold_place *place,
                                  uint64_t slots, ferretgold_visit *visit, void *context);

/* Whether the entries of a key are meant. */
typedef bool ferretgold_meant(void *context, const ferretgold_key *key);

/*
 * Erases, by ferretgold_erase, each key that a walk comes to and that is meant; all if `meant` is
 * null. So no entry is visible at the end that was visible all the time and whose key is meant.
 * `hidden` gets how many were hidden, also after a refusal; it may be null.
 *
 * Costs a walk, and an erasure for each entry that is meant.
 *
 * Refuses HANDLES_FULL, SPENT, as the walk does.
 */
ferretgold_status ferretgold_erase_where(ferretgold_client *client, ferretgold_meant *meant,
                                         void *context, uint64_t *hidden);

/* ---- Totals ---------------------------------------------------------------------------------- */

/* Each of the three goes through the shards while other threads work: it is no picture of one
 * moment. The first two saturate at 2^64 - 1. */

/* What is charged, also for standalone entries and for what other clients have reserved. Under
 * strict at most S times the capacity of a shard. Bound: S. */
ferretgold_status ferretgold_usage(ferretgold_client *client, uint64_t *usage);

/* What is charged for entries that are held, and for standalone ones. Bound: S*(5*L + 1). */
ferretgold_status ferretgold_pinned_usage(ferretgold_client *client, uint64_t *usage);

/* How many entries the table has, with the places and freed slots that other clients have in hand:
 * of each shard at most 84 of a hundred slots, and a place for each client. Standalone ones don't
 * count. Bound: S. */
ferretgold_status ferretgold_occupancy(ferretgold_client *client, uint64_t *occupancy);

/* The meta word of a slot, and how often it stands in trails: for tests and tools. Bound: 1.
 * Both refuse OUT_OF_RANGE. */
ferretgold_status ferretgold_word(ferretgold_client *client, uint32_t shard, uint32_t slot,
                                  uint64_t *word);

ferretgold_status ferretgold_displacement(ferretgold_client *client, uint32_t shard, uint32_t slot,
                                          uint64_t *displacement);

/* ---- Of a client, without an atomic step. One that is null or idle has no handle and no serial;
 * its number is 0, and ferretgold_statistics refuses it. ------------------------------------ */

/* Its number among the cache's clients, from 0. */
uint32_t ferretgold_client_number(ferretgold_client *client);

/* How many handles it holds. */
uint32_t ferretgold_held(ferretgold_client *client);

/* How many serials it has left. */
uint64_t ferretgold_serials_left(ferretgold_client *client);

/* Whether it holds this handle. */
FERRETGOLD_INLINE bool ferretgold_holds(ferretgold_client *client, ferretgold_handle handle);

/* What its calls did on all shards. */
ferretgold_status ferretgold_statistics(ferretgold_client *client, ferretgold_stats *stats);

/* ---- Texts ----------------------------------------------------------------------------------- */

/* A status as a sentence; "unknown" if it is none. */
const char *ferretgold_status_text(ferretgold_status status);

/* The version of the library, as FERRETGOLD_VERSION has it. */
const char *ferretgold_version(void);

#ifdef __cplusplus
}
#endif

#if defined(__cplusplus)
#define FERRETGOLD_SIZE_IS(type, size) \
    static_assert(sizeof(type) == (size), "ferretgold: " #type " has another size here")
#else
#define FERRETGOLD_SIZE_IS(type, size) \
    _Static_assert(sizeof(type) == (size), "ferretgold: " #type " has another size here")
#endif
FERRETGOLD_SIZE_IS(void *, 8);
FERRETGOLD_SIZE_IS(bool, 1);
FERRETGOLD_SIZE_IS(ferretgold_status, 4);
FERRETGOLD_SIZE_IS(ferretgold_priority, 4);
FERRETGOLD_SIZE_IS(ferretgold_inserted, 4);
FERRETGOLD_SIZE_IS(ferretgold_config, 48);
FERRETGOLD_SIZE_IS(ferretgold_key, 16);
FERRETGOLD_SIZE_IS(ferretgold_handle, 24);
FERRETGOLD_SIZE_IS(ferretgold_stats, 64);
FERRETGOLD_SIZE_IS(ferretgold_counts, 224);
FERRETGOLD_SIZE_IS(ferretgold_totals, 32);
FERRETGOLD_SIZE_IS(ferretgold_fit, 40);
FERRETGOLD_SIZE_IS(ferretgold_held_entry, 56);
FERRETGOLD_SIZE_IS(ferretgold_part, 16);
#undef FERRETGOLD_SIZE_IS

#ifndef FERRETGOLD_CHECK
#include "ferretgold_inline.h"
#endif

#endif
