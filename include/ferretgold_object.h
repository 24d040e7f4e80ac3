/*
 * ferretgold_object.h - a cache of objects: each entry stands for something of the program's, which
 * is handed back to the program, once, when the entry goes.
 *
 * An object is a pointer and a kind. The cache never looks where it points, copies nothing, and
 * gives readers the pointer itself. What ferretgold.h says of keys, charges, priorities, refusals
 * and of what isn't checked holds here too; there is no copying call, and values have no size.
 * Bytes of any length are objects that the last three calls copy in, free, and show.
 *
 *     void delete_block(void *context, const ferretgold_key *key, void *object, uint16_t kind);
 *
 *     ferretgold_object_config config = FERRETGOLD_OBJECT_CONFIG;
 *     ferretgold_object_cache *cache;
 *     const ferretgold_object_handle *handle;
 *     if (ferretgold_object_open(&config, delete_block, NULL, &cache) != FERRETGOLD_OK) ...
 *     if (ferretgold_object_lookup(cache, &key, &handle) == FERRETGOLD_OK) {
 *         ... use handle->object ...
 *         ferretgold_object_release(cache, handle, true, false, NULL);
 *     }
 *
 * WHAT IS PROVED
 *   The proved library under this header hands each object that was placed back once, to the call
 *   that freed its entry, and not while anybody holds that (docs/GUARANTEES.md). What the header
 *   adds is tested, not proved: which client a thread works through, handles that other threads
 *   give back, and when deleters run.
 *
 * OBJECTS
 *   A pointer is any number below 2^48, null too, and may stand under two keys: then it is handed
 *   back twice. For kinds of which each object is to stand once (ferretgold_object_owns) the
 *   checking library ends the program at a second insertion.
 *
 *   | Answer                                  | The object is then                                |
 *   |-----------------------------------------|---------------------------------------------------|
 *   | insert, insert_pinned: PLACED           | the cache's: a deleter gets it, once              |
 *   | insert_pinned: STANDALONE               | its handle's: a deleter gets it when that goes    |
 *   | insert: DROPPED, and each refusal       | the caller's still: no deleter runs for it        |
 *
 * DELETERS
 *   The deleter of a cache gets each object that was placed or stood alone, with the key and kind
 *   of its insertion, once: on the thread whose call freed the entry, when the proved call is over
 *   and before this one returns, also after an insertion that was refused, which may have evicted
 *   others.
 *   - It may call the cache, except to close it. What its calls free is deleted by the same loop,
 *     when it is over: so deleters never nest, and the stack stays as deep, however many there are.
 *     For that time its thread's calls have one client and that one's list: they may be refused by
 *     HANDLES_FULL or GONE_FULL, and erase without freeing, where others wouldn't be.
 *   - It must return: it neither throws nor jumps out, nor ends its thread.
 *   - A release whose `freed` is true may have freed another entry than its handle's. An entry that
 *     was erased while it was held is freed by some later call, or when the cache is closed.
 *
 * THREADS
 *   All threads may make all calls at once, except that ferretgold_object_close comes after all
 *   others. A thread needs no client: each call finds the one that its thread used last, or takes
 *   one that no thread uses. Clients belong to the cache. A thread that ends, or lives on when the
 *   cache is closed, leaves nothing behind.
 *   - No thread waits for another. Where there are more threads than clients, a call works through
 *     a client that is in no call just then, which costs a system call (membarrier). If it finds
 *     none, a look-up misses, `insert` drops, `insert_pinned` gives a handle on an object that
 *     stands alone and isn't in the usage, if fewer such handles are out than there are clients,
 *     and what else needs a client refuses by NO_CLIENT. So do most calls, where many more threads
 *     run than there are clients.
 *   - A client with no handle left to give, or no serial, is changed for another.
 *
 * HANDLES
 *   A handle is a pointer to what it shows, which any thread may read until it is given back. Any
 *   thread may give it back. One that did not get it leaves it on a queue of its client; that gives
 *   it back at a later call, a few at a time, or whoever finds 64 there, walks
 *   (ferretgold_object_pin_at of the first slot), asks for a total, collects or closes does, if the
 *   client is in no call. Until then its entry stays held. A handle that was given back is refused by NO_HANDLE
 *   only until its place is used again: from then on it is another handle.
 *
 * COSTS
 *   Calls allocate nothing, except opening, and an insertion of bytes their copy. A look-up and a
 *   release cost what the proved calls do, which load the charge, too, and at most 55 instructions
 *   each where the client is the thread's own and nothing waits to be given back; find and
 *   give_back, which tell no status, at most 45.
 *   Bounds of atomic steps are those of the proved calls, times the tries of an insertion, with a
 *   release for each of at most 4 handles that other threads gave back.
 */
#ifndef FERRETGOLD_OBJECT_H
#define FERRETGOLD_OBJECT_H

#include "ferretgold.h"

#ifdef __cplusplus
extern "C" {
#endif

/* Statuses of these calls beside those of ferretgold_status. */
enum {
    /* What was freed and not deleted yet, and what stands alone, fill the list of the thread's
     * client: only of calls of deleters. */
    FERRETGOLD_GONE_FULL = 41,
    /* The object's address is 2^48 or above. */
    FERRETGOLD_TOO_HIGH = 42,
    /* The field `gone` of the configuration is out of its range. */
    FERRETGOLD_BAD_GONE = 43,
    /* Objects that are to be handed back weren't all taken: of proved calls only. */
    FERRETGOLD_UNTAKEN = 44
};

/* How large a cache is, and how it behaves: the fields of ferretgold_config, except that slots have
 * no room for values. */
typedef struct ferretgold_object_config {
    uint32_t slots;    /* of each shard: a power of two, 8 to 65,536 */
    uint32_t clients;  /* 1 to 1,024: at least as many as threads make calls at once */
    uint32_t handles;  /* that a client may hold at once: 1 to 16,384 */
    uint32_t gone;     /* how many entries one call may free before deleters run: 4 to 65,536 */
    uint32_t shards;   /* a power of two, 1 to 64 */
    bool strict;       /* whether each shard's charges stay within its part of the capacity */
    bool marks;        /* whether look-ups mark entries */
    uint16_t size;     /* of this struct in bytes, as FERRETGOLD_OBJECT_CONFIG has it; 0 is 48 */
    uint64_t capacity; /* in charges, at most 2^40; each shard has an equal part, rounded up */
    uint64_t serials;  /* of each client: 1 to 2^54; each try to insert and each handle uses one */
    uint64_t seed;     /* of the keys; 0: opening draws one; FERRETGOLD_UNSEEDED: keys stay as they
                          are, only if they are spread already, as hashes are */
} ferretgold_object_config;

/* A configuration to begin with: 16,384 slots, not strict, 64 clients, and as capacity 11,468
 * entries of charge 4,096. Its seed is drawn. */
#define FERRETGOLD_OBJECT_CONFIG \
    {4096, 64, 256, 256, 4, false, false, sizeof(ferretgold_object_config), 46972928, \
     FERRETGOLD_MOST_SERIALS, 0}

/* What a handle shows, until it is given back: read only. */
typedef struct ferretgold_object_handle {
    void *object;
    ferretgold_key key;
    uint32_t charge;
    uint16_t kind;
} ferretgold_object_handle;

/* Deletes an object: `context` is what the cache was opened with. */
typedef void (*ferretgold_deleter)(void *context, const ferretgold_key *key, void *object,
                                   uint16_t kind);

/* A cache of objects. */
typedef struct ferretgold_object_cache ferretgold_object_cache;

/* ---- Opening and closing --------------------------------------------------------------------- */

/*
 * How many bytes a cache of this configuration allocates:
 *     shards * (272 + slots * 64) + 6640
 *     + clients * (1384 + 72 * shards + 192 * handles + 24 * gone)
 * A shard's table is rounded up as ferretgold_memory says. The checking library takes more. 0 where
 * ferretgold_object_config_check refuses.
 */
uint64_t ferretgold_object_memory(const ferretgold_object_config *config);

/*
 * Whether a cache can be opened so, whatever the system gives: refuses what ferretgold_object_open
 * refuses, except NO_SEED and OUT_OF_MEMORY.
 */
ferretgold_status ferretgold_object_config_check(const ferretgold_object_config *config);

/*
 * Opens a cache with no entries. Its deleter gets `context`, which may be null.
 *
 * Allocates all that the cache will need (ferretgold_object_memory). Draws a seed as ferretgold_open
 * does.
 *
 * Refuses BAD_SIZE, BAD_SLOTS, BAD_CLIENTS, BAD_HANDLES, BAD_SHARDS, BAD_CAPACITY, BAD_SERIALS,
 * BAD_GONE, then NO_SEED, if one is to be drawn, then OUT_OF_MEMORY. Nothing remains then.
 */
ferretgold_status ferretgold_object_open(const ferretgold_object_config *config,
                                         ferretgold_deleter deleter, void *context,
                                         ferretgold_object_cache **cache)
    FERRETGOLD_LINKED(ferretgold_object_open);

/* The configuration that a cache was opened with, and in it the seed that was drawn. */
ferretgold_status ferretgold_object_config_of(const ferretgold_object_cache *cache,
                                              ferretgold_object_config *config);

/*
 * Says that each object of a kind, unless null, is to stand in the cache once: before the first one
 * is inserted. Only the checking library looks: it ends the program at an insertion of one that
 * stands.
 */
ferretgold_status ferretgold_object_owns(ferretgold_object_cache *cache, uint16_t kind);

/*
 * Ends a cache whose handles were all given back, while no thread is in a call on it. Its deleter
 * gets all that is left; for what the table had, it can't call the cache with success: look-ups
 * miss, `insert` drops, the rest refuses by NO_CLIENT. All memory is freed then.
 *
 * Refuses CLIENTS_OUT, if it sees a thread in a call, also where a deleter calls it; HANDLES_OUT.
 * After a refusal the cache works on.
 */
ferretgold_status ferretgold_object_close(ferretgold_object_cache *cache);

/* ---- Getting and giving back handles --------------------------------------------------------- */

/*
 * Looks for a visible entry of the key. FERRETGOLD_OK: there is a handle on it. FERRETGOLD_MISS:
 * there was none that the thread's client could see, or no client was to be had.
 *
 * Refuses HANDLES_FULL, SPENT: after that of other clients; also if the key isn't there.
 */
ferretgold_status ferretgold_object_lookup(ferretgold_object_cache *cache,
                                           const ferretgold_key *key,
                                           const ferretgold_object_handle **handle);

/*
 * The same of the entry of a slot, if a visible one is there: for walks over a cache. MISS: there
 * is none, or no such slot. Where it finds a hidden one that nobody holds, it tries to free it.
 *
 * Refuses NO_CLIENT, HANDLES_FULL, SPENT.
 */
ferretgold_status ferretgold_object_pin_at(ferretgold_object_cache *cache, uint32_t shard,
                                           uint32_t slot,
                                           const ferretgold_object_handle **handle);

/* Returns the handle of a look-up: null for each answer but OK. `cache` isn't null. */
const ferretgold_object_handle *ferretgold_object_find(ferretgold_object_cache *cache,
                                                       ferretgold_key key);

/*
 * Counts one more reference on a handle, which has to be given back once for each. Any thread that
 * may use the handle may call this. Costs an atomic add. Needs no client.
 *
 * Refuses NO_HANDLE.
 */
ferretgold_status ferretgold_object_ref(ferretgold_object_cache *cache,
                                        const ferretgold_object_handle *handle);

/*
 * Gives a handle back. What `useful` and `erase_if_last` say, as in ferretgold_release, counts
 * where it is the last reference. `freed` gets whether this call freed an entry: never where the
 * handle went on a queue; it may be null. Needs no client.
 *
 * Refuses NO_HANDLE.
 */
ferretgold_status ferretgold_object_release(ferretgold_object_cache *cache,
                                            const ferretgold_object_handle *handle, bool useful,
                                            bool erase_if_last, bool *freed);

/* The same, and returns whether this call freed an entry. Only the handle may be null. */
bool ferretgold_object_give_back(ferretgold_object_cache *cache,
                                 const ferretgold_object_handle *handle, bool useful,
                                 bool erase_if_last);

/*
 * Gives back what waits on queues of clients that are in no call, so that its entries can go. Costs
 * two loads a client, and for each with something there a system call, and the releases.
 */
ferretgold_status ferretgold_object_collect(ferretgold_object_cache *cache);

/* ---- Inserting and erasing ------------------------------------------------------------------- */

/*
 * Inserts an object of this key and charge, and keeps no handle on it: PLACED or DROPPED, this also
 * where ferretgold_insert answers THERE. `object` and `inserted` may be null. Where it isn't placed, and so much
 * was freed for it that the list of the thread's client is full, deleters run and it is tried
 * again, four times at most.
 *
 * Refuses BAD_PRIORITY, NO_CHARGE, SPENT, TOO_HIGH, TOO_LARGE; and if strict, after evictions that
 * stay made, CAPACITY_FULL, OCCUPANCY_FULL.
 */
ferretgold_status ferretgold_object_insert(ferretgold_object_cache *cache,
                                           const ferretgold_key *key, void *object, uint16_t kind,
                                           uint32_t charge, ferretgold_priority priority,
                                           ferretgold_inserted *inserted);

/*
 * The same, and gives a handle on it: PLACED or STANDALONE, as ferretgold_insert_pinned has it.
 *
 * `handle` may be null: then it is given back at once, as no use. So a new entry outlives one visit
 * of the clock less than its priority says: at the lowest it goes at the first, unless a look-up
 * finds it before. What would stand alone is DROPPED, as where no client is to be had.
 *
 * Refuses BAD_PRIORITY, NO_CHARGE, HANDLES_FULL, SPENT, GONE_FULL, TOO_HIGH, TOO_LARGE; and if
 * strict, after evictions that stay made, CAPACITY_FULL, OCCUPANCY_FULL. Where no client is to be
 * had, NO_CLIENT behind these of arguments.
 */
ferretgold_status ferretgold_object_insert_pinned(ferretgold_object_cache *cache,
                                                  const ferretgold_key *key, void *object,
                                                  uint16_t kind, uint32_t charge,
                                                  ferretgold_priority priority,
                                                  ferretgold_inserted *inserted,
                                                  const ferretgold_object_handle **handle);

/* The same with no handle, and returns whether the object is placed: else it is the caller's still.
 * `cache` and `key` aren't null. */
bool ferretgold_object_put(ferretgold_object_cache *cache, const ferretgold_key *key, void *object,
                           uint16_t kind, uint32_t charge, ferretgold_priority priority);

/*
 * Hides each visible entry of the key, and makes one try to free each that nobody holds, as
 * ferretgold_erase does. `hidden` gets how many were hidden; it may be null.
 *
 * Refuses NO_CLIENT.
 */
ferretgold_status ferretgold_object_erase(ferretgold_object_cache *cache,
                                          const ferretgold_key *key, uint32_t *hidden);

/* ---- Totals ---------------------------------------------------------------------------------- */

/* What ferretgold_usage, ferretgold_pinned_usage and ferretgold_occupancy say, in as many steps,
 * once what waits on queues is given back, as ferretgold_object_collect does it. An entry whose
 * handle waits there still is held; what stands alone and isn't in the usage is in none of the
 * three. They refuse NO_CLIENT. */
ferretgold_status ferretgold_object_usage(ferretgold_object_cache *cache, uint64_t *usage);
ferretgold_status ferretgold_object_pinned_usage(ferretgold_object_cache *cache, uint64_t *usage);
ferretgold_status ferretgold_object_occupancy(ferretgold_object_cache *cache, uint64_t *occupancy);

/*
 * What the calls of all clients came to, in sum, and of the client of this number: as
 * ferretgold_cache_counts, of look-ups and insertions of objects. Where a call went from client to
 * client, the last one counts it; those for which none was to be had are in the sum, and under the number
 * that is as many as there are clients. A walk's handles and insertions' are no hits.
 *
 * An insertion that is tried again counts once, with the turns and evictions of each try. `lost` has what
 * insertions lost, and no other calls. For it each try asks twice what the client did at the key's shard.
 *
 * ferretgold_object_client_counts refuses OUT_OF_RANGE: the number is above that of clients.
 */
ferretgold_status ferretgold_object_cache_counts(const ferretgold_object_cache *cache,
                                                 ferretgold_counts *counts);
ferretgold_status ferretgold_object_client_counts(const ferretgold_object_cache *cache,
                                                  uint32_t number, ferretgold_counts *counts);

/* ---- Walks ----------------------------------------------------------------------------------- */

/* Where a walk goes on, as over a cache of bytes. */
typedef ferretgold_place ferretgold_object_place;

/* What a walk calls for an entry while it holds that. Returns whether the call goes on. */
typedef bool ferretgold_object_visit(void *context, const ferretgold_object_handle *handle);

/*
 * Looks at the next slots of a walk, at most so many, while other threads work with the cache, and
 * visits each visible entry there: one that is visible from a walk's first call to its last exactly
 * once. `place` gets where the next call goes on. Uses, marks, hits and misses stay. OK if slots are
 * left, also where `visit` ended the call; MISS at the end.
 *
 * Refuses NO_CLIENT, HANDLES_FULL, SPENT, as ferretgold_object_pin_at does of a slot: the place is
 * that slot's then. Costs for each slot what that costs, and a release for each entry.
 */
ferretgold_status ferretgold_object_walk(ferretgold_object_cache *cache,
                                         ferretgold_object_place *place, uint64_t slots,
                                         ferretgold_object_visit *visit, void *context);

/*
 * Erases, by ferretgold_object_erase, each key that a walk comes to and that is meant; all if `meant`
 * is null. So no entry is visible at the end that was visible all the time and whose key is meant.
 * `hidden` gets how many were hidden, also after a refusal; it may be null.
 *
 * Refuses as the walk and the erasure do, once a slot refused 64 times.
 */
ferretgold_status ferretgold_object_erase_where(ferretgold_object_cache *cache,
                                                ferretgold_meant *meant, void *context,
                                                uint64_t *hidden);

/* ---- Bytes ----------------------------------------------------------------------------------- */

/*
 * Bytes of any length as objects: a copy in one block of malloc, which begins as malloc's blocks do
 * and takes 16 bytes beside them. Look them up as any object, and read them in place while you hold
 * the handle. Their kind is 0; a cache that has other objects too gives those other kinds.
 *
 *     ferretgold_object_open(&config, ferretgold_object_free_bytes, NULL, &cache);
 */

/* A deleter of bytes, for ferretgold_object_open, or for a deleter of yours to call for kind 0. It
 * frees them. */
void ferretgold_object_free_bytes(void *context, const ferretgold_key *key, void *object,
                                  uint16_t kind);

/*
 * Inserts a copy of so many bytes, as ferretgold_object_insert inserts an object. The charge is the
 * caller's: the length, say, and what a block takes beside it. `bytes` may be null if `length` is
 * 0. If they aren't placed the copy is freed.
 *
 * Refuses OUT_OF_MEMORY, then as ferretgold_object_insert.
 */
ferretgold_status ferretgold_object_insert_bytes(ferretgold_object_cache *cache,
                                                 const ferretgold_key *key, const void *bytes,
                                                 size_t length, uint32_t charge,
                                                 ferretgold_priority priority,
                                                 ferretgold_inserted *inserted);

/* The bytes that a handle of kind 0 shows, until it is given back, and how many: `length` may be
 * null. Null if the handle is null, shows null, or is of another kind. */
const void *ferretgold_object_bytes(const ferretgold_object_handle *handle, size_t *length);

#ifdef __cplusplus
}
#endif

#if defined(__cplusplus)
static_assert(sizeof(ferretgold_object_config) == 48, "ferretgold: it has another size here");
static_assert(sizeof(ferretgold_object_handle) == 32, "ferretgold: it has another size here");
#else
_Static_assert(sizeof(ferretgold_object_config) == 48, "ferretgold: it has another size here");
_Static_assert(sizeof(ferretgold_object_handle) == 32, "ferretgold: it has another size here");
#endif

#endif
