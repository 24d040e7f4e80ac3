/* The calls of ferretgold_object.h round those of the proved library: each works through a client
 * of the calling thread, and fills the record that a handle points to. It is tested, not proved. */
#include "object_call.h"
#include "counts.h"

enum {
    WAITING = 64,   /* from how many on others give handles back, if they can */
    INSERTIONS = 4, /* how often an insertion is tried whose list was full */
    PRIORITIES = 3,
    ADDRESS_BITS = 48
};

/* ---- Records --------------------------------------------------------------------------------- */

/* Fills a record: of a proved handle, or a spare one. */
static inline const ferretgold_object_handle *shown(record *it, uint64_t serial,
                                                    const ferretgold_key *key,
                                                    const ferretgold_object_value *value,
                                                    uint64_t charge) {
    it->shows.object = (void *)(uintptr_t)value->address;
    it->shows.key = *key;
    it->shows.charge = (uint32_t)charge;
    it->shows.kind = value->kind;
    it->handle.serial = serial;
    atomic_store_explicit(&it->more, 0, memory_order_relaxed);
    return &it->shows;
}

/* The same of what a client holds now. */
static inline const ferretgold_object_handle *shown_by(object_client *client,
                                                       const ferretgold_held_object *held) {
    return shown(&client->records[held->handle.index], held->handle.serial, &held->key,
                 &held->object, held->charge);
}

/* The record that a handle points to. */
static record *record_of(const ferretgold_object_handle *handle) {
    return (record *)(uintptr_t)handle;
}

/* Whether a record is one of a client's. */
static inline bool is_of(const object_client *client, const record *it) {
    return (uintptr_t)it - (uintptr_t)client->records < client->size;
}

/* ---- Looking up ------------------------------------------------------------------------------ */

/* Looks up the key in `held` by one client, and counts what comes of it, unless it is refused. */
static inline uint32_t looked_up_by(object_client *client, ferretgold_held_object *held,
                                    const ferretgold_object_handle **handle) {
    const uint32_t status = ferretgold_raw_object_hold(&client->session, held);
    if (status == FERRETGOLD_OK) {
        *handle = shown_by(client, held);
        count_more(&client->counts.hits);
    } else if (!RARELY(status > FERRETGOLD_MISS)) {
        count_more(&client->counts.misses);
    }
    return status;
}

/* What a look-up comes to, in two registers. */
typedef struct found {
    uint32_t status;
    const ferretgold_object_handle *handle;
} found;

/* The same where more is to be done than that. */
SLOWLY static found looked_up_slowly(ferretgold_object_cache *cache, ferretgold_key key) {
    ferretgold_held_object held = {.key = key};
    found all = {FERRETGOLD_MISS, NULL};
    object_cell *it = enter(cache);
    if (it == NULL) {
        count_together(&cache->nowhere.misses);
        return all;
    }
    uint32_t changes = 0;
    do {
        all.status = looked_up_by(it->in_use, &held, &all.handle);
    } while (all.status > FERRETGOLD_MISS && may_retry(it, all.status, &changes));
    if (all.status > FERRETGOLD_MISS) {
        count_more(&it->in_use->counts.misses);
    }
    (void)leave(it, all.status);
    return all;
}

/* The same once the thread's own client has refused the key that it holds. */
SLOWLY static found refused_by(const object_client *client) {
    return looked_up_slowly(client->cache, client->held.key);
}

/* By the thread's own client at once, if nothing is to be done before. */
QUICKLY found looked_up(ferretgold_object_cache *cache, ferretgold_key key) {
    const object_cell *cell = cell_at_home(cache);
    object_client *client = cell->client;
    if (RARELY(!is_ready(cache, cell)) || RARELY(!entered_plainly(client, cell, 0))) {
        return looked_up_slowly(cache, key);
    }
    found all = {FERRETGOLD_MISS, NULL};
    client->held.key = key;
    all.status = looked_up_by(client, &client->held, &all.handle);
    client_left(client);
    return RARELY(all.status > FERRETGOLD_MISS) ? refused_by(client) : all;
}

ferretgold_status ferretgold_object_lookup(ferretgold_object_cache *cache,
                                           const ferretgold_key *key,
                                           const ferretgold_object_handle **handle) {
    if (RARELY(cache == NULL) || RARELY(key == NULL)) {
        return FERRETGOLD_NULL;
    }
    if (RARELY(handle == NULL)) {
        return FERRETGOLD_NULL;
    }
    const found all = looked_up(cache, *key);
    if (all.handle != NULL) {
        *handle = all.handle;
    }
    return (ferretgold_status)all.status;
}

const ferretgold_object_handle *ferretgold_object_find(ferretgold_object_cache *cache,
                                                       ferretgold_key key) {
    return looked_up(cache, key).handle;
}

ferretgold_status ferretgold_object_pin_at(ferretgold_object_cache *cache, uint32_t shard,
                                           uint32_t slot,
                                           const ferretgold_object_handle **handle) {
    if (cache == NULL || handle == NULL) {
        return FERRETGOLD_NULL;
    }
    if (shard == 0 && slot == 0) {
        relieve_all(cache);
    }
    object_cell *it = enter(cache);
    if (it == NULL) {
        return FERRETGOLD_NO_CLIENT;
    }
    ferretgold_held_object held;
    uint32_t status, changes = 0;
    do {
        it->in_use->untaken = true;
        status = ferretgold_raw_object_pin_at(&it->in_use->session, shard, slot, &held);
    } while (status > FERRETGOLD_MISS && may_retry(it, status, &changes));
    if (status == FERRETGOLD_OK) {
        *handle = shown_by(it->in_use, &held);
    }
    return leave(it, status);
}

/* ---- Giving back ----------------------------------------------------------------------------- */

ferretgold_status ferretgold_object_ref(ferretgold_object_cache *cache,
                                        const ferretgold_object_handle *handle) {
    if (cache == NULL || handle == NULL) {
        return FERRETGOLD_NULL;
    }
    record *it = record_of(handle);
    if (it->handle.cache != cache->number
        || atomic_load_explicit(&it->more, memory_order_relaxed) == GIVEN_BACK) {
        return FERRETGOLD_NO_HANDLE;
    }
    atomic_fetch_add_explicit(&it->more, 1, memory_order_relaxed);
    return FERRETGOLD_OK;
}

/* Puts an object of no client where its thread's call finds it. */
static void leave_alone(object_cell *cell, record *it) {
    it->handle.serial = (uintptr_t)cell->alone;
    cell->alone = it;
    if (cell->in_use != NULL) {
        cell->in_use->untaken = true;
    }
}

/* Ends the handle of an object of no client. The thread's first call runs its deleter: this one,
 * also where there is no client for it. */
static void end_alone(ferretgold_object_cache *cache, record *it) {
    object_cell *cell = cell_of(cache);
    if (cell != NULL && is_in_call(cell)) {
        leave_alone(cell, it);
        return;
    }
    if (enter(cache) != NULL) {
        leave_alone(cell, it);
        (void)leave(cell, FERRETGOLD_OK);
        return;
    }
    if (cell == NULL) {
        const ferretgold_object_handle was = it->shows;
        const ferretgold_object_value value = {(uintptr_t)was.object, was.kind};
        spare_given_back(cache, it);
        delete_object(cache, &was.key, &value);
        return;
    }
    cell->in_use = NULL;
    cell->ready = 0;
    cell->depth = 1;
    leave_alone(cell, it);
    while (has_deleted_alone(cache, cell)) {
    }
    cell->depth = 0;
}

/* What a release comes to, in one register: where it isn't OK nothing was freed. */
typedef struct let_go {
    uint32_t status;
    bool freed;
} let_go;

/* Gives a handle back by its client, whose call this is, or leaves it to that, and gives back what
 * waits there if that is much. */
static let_go given_back(ferretgold_object_cache *cache, record *it, bool useful,
                         bool erase_if_last) {
    let_go all = {FERRETGOLD_OK, false};
    if (it->handle.client == NOWHERE) {
        end_alone(cache, it);
        all.freed = true;
        return all;
    }
    object_client *client = &cache->client[it->handle.client];
    object_cell *cell = enter_own(client);
    if (cell == NULL) {
        if (record_pushed(client, it, useful, erase_if_last) % WAITING == 0) {
            relieve(cell_of(cache), client);
        }
        return all;
    }
    all.status = ferretgold_raw_object_release(&client->session, &it->handle, useful,
                                               erase_if_last, &all.freed);
    client->untaken |= all.freed;
    (void)leave(cell, all.status);
    return all;
}

/* Ends a reference of a handle, also where there are more of them, or the client is another. */
SLOWLY static let_go released_slowly(ferretgold_object_cache *cache, record *it, bool useful,
                                     bool erase_if_last) {
    if (it == NULL) {
        return (let_go){FERRETGOLD_NULL, false};
    }
    const unsigned seen = atomic_load_explicit(&it->more, memory_order_acquire);
    if (it->handle.cache != cache->number || seen == GIVEN_BACK) {
        return (let_go){FERRETGOLD_NO_HANDLE, false};
    }
    if (seen > 0 && atomic_fetch_sub(&it->more, 1) > 0) {
        return (let_go){FERRETGOLD_OK, false};
    }
    atomic_store_explicit(&it->more, GIVEN_BACK, memory_order_relaxed);
    return given_back(cache, it, useful, erase_if_last);
}

/* The end of one that began at once and freed an entry. */
SLOWLY static let_go left_with_deleters(object_client *client) {
    object_cell *it = cell_of(client->cache);
    begin(it, client);
    client->freed = false;
    client->untaken = true;
    (void)leave(it, FERRETGOLD_OK);
    return (let_go){FERRETGOLD_OK, true};
}

/* By the thread's own client at once, if nothing is to be done before. The record may be null, which
 * no client has. */
QUICKLY let_go released(ferretgold_object_cache *cache, record *it, bool useful,
                        bool erase_if_last) {
    const object_cell *cell = cell_at_home(cache);
    object_client *client = cell->client;
    if (RARELY(!is_ready(cache, cell)) || RARELY(!is_of(client, it))) {
        return released_slowly(cache, it, useful, erase_if_last);
    }
    if (RARELY(!entered_plainly(client, cell,
                                   atomic_load_explicit(&it->more, memory_order_acquire)))) {
        return released_slowly(client->cache, it, useful, erase_if_last);
    }
    atomic_store_explicit(&it->more, GIVEN_BACK, memory_order_relaxed);
    const uint32_t status = ferretgold_raw_object_release(&client->session, &it->handle, useful,
                                                          erase_if_last, &client->freed);
    if (RARELY(client->freed)) {
        return left_with_deleters(client);
    }
    client_left(client);
    return (let_go){status, false};
}

ferretgold_status ferretgold_object_release(ferretgold_object_cache *cache,
                                            const ferretgold_object_handle *handle, bool useful,
                                            bool erase_if_last, bool *freed) {
    if (RARELY(cache == NULL)) {
        return FERRETGOLD_NULL;
    }
    const let_go all = released(cache, record_of(handle), useful, erase_if_last);
    if (freed != NULL && all.status == FERRETGOLD_OK) {
        *freed = all.freed;
    }
    return (ferretgold_status)all.status;
}

bool ferretgold_object_give_back(ferretgold_object_cache *cache,
                                 const ferretgold_object_handle *handle, bool useful,
                                 bool erase_if_last) {
    return released(cache, record_of(handle), useful, erase_if_last).freed;
}

/* ---- Inserting ------------------------------------------------------------------------------- */

/* Without a handle; with one that is given back at once, as no use; and with a handle. */
typedef enum way { PLAIN, COLD, PINNED } way;

/* An object that is to be inserted, and what a proved call told. */
typedef struct insertion {
    const ferretgold_key *key;
    ferretgold_object_value value;
    uint32_t charge;
    uint32_t priority;
    uint32_t placing;
    bool list_full;
    bool freed;               /* whether giving the handle back freed something */
    bool met;                 /* whether the last try met the key */
    ferretgold_handle handle; /* but of a plain one */
    uint64_t turns;           /* of all tries, once the first isn't all */
    ferretgold_stats before, after; /* of its last try: what the client did at the key's shard */
} insertion;

/* What an insertion comes to, in one register. Where it isn't OK it is placed nowhere. */
typedef struct outcome {
    uint32_t status;
    uint32_t placing;
} outcome;

/* What is asked for: the rest comes of it. */
static inline void ask(insertion *it, const ferretgold_key *key, void *object, uint16_t kind,
                       uint32_t charge, ferretgold_priority priority) {
    it->key = key;
    it->value = (ferretgold_object_value){(uintptr_t)object, kind};
    it->charge = charge;
    it->priority = (uint32_t)priority;
}

/* One try. */
static inline uint32_t insert_once(object_client *client, insertion *it, way way) {
    it->list_full = false;
    ferretgold_raw_object_stats_at(&client->session, it->key, &it->before);
    if (way == PLAIN) {
        return ferretgold_raw_object_insert(&client->session, it->key, &it->value, it->charge,
                                            it->priority, &it->placing, &it->list_full);
    }
    return ferretgold_raw_object_insert_pinned(&client->session, it->key, &it->value, it->charge,
                                               it->priority, &it->placing, &it->list_full,
                                               &it->handle);
}

/* Counts what a try did, and notes what the insertion's outcome has to know. */
static void note_try(object_client *client, insertion *it) {
    ferretgold_raw_object_stats_at(&client->session, it->key, &it->after);
    it->met = it->after.boosts != it->before.boosts;
    it->turns += it->after.turns - it->before.turns;
    count_done(&client->counts, &it->before, &it->after);
}

/* The same of an insertion whose first try placed the object, and turned the hand: runs deleters, too. */
APART static void count_turned(object_cell *cell, const insertion *it) {
    ferretgold_counts *counts = &cell->in_use->counts;
    count_more(class_of(counts, it->after.turns - it->before.turns));
    count_done(counts, &it->before, &it->after);
    delete_gone(cell);
}

/* The same of any whose first try placed it. An insertion frees nothing but by turns. */
static inline void count_placed(object_cell *cell, object_client *client, insertion *it) {
    count_more(&client->counts.placed);
    ferretgold_raw_object_stats_at(&client->session, it->key, &it->after);
    if (it->after.turns != it->before.turns || RARELY(it->after.lost != it->before.lost)) {
        count_turned(cell, it);
    } else {
        count_more(&client->counts.by_turns[0]);
    }
}

/* Gives the handle of an insertion back as no use. */
static inline void unpin(object_client *client, insertion *it) {
    (void)ferretgold_raw_object_release(&client->session, &it->handle, false, false, &it->freed);
}

/* Takes back an object that stands alone: it is the newest on the list then, and the caller's. */
static void take_back(object_client *client, insertion *it) {
    ferretgold_key key;
    ferretgold_object_value value;
    size_t left;
    unpin(client, it);
    (void)ferretgold_raw_object_take_gone(&client->session, &key, &value, &left);
}

/* The handle of an insertion. */
static inline const ferretgold_object_handle *shown_of(object_client *client,
                                                       const insertion *it) {
    return shown(&client->records[it->handle.index], it->handle.serial, it->key, &it->value,
                 it->charge);
}

/* The object of an insertion, for the checking library. */
#define OBJECT_OF(it) ((const void *)(uintptr_t)(it)->value.address)

/* Tries again where that helps: where the list was full the first call of a thread empties it, and
 * where the client was full, or spent, there may be another. */
static uint32_t insert_again(object_cell *cell, insertion *it, way way, uint32_t status) {
    uint32_t tries = 0, changes = 0;
    for (;;) {
        const bool list_full = it->list_full || status == FERRETGOLD_GONE_FULL;
        if (list_full && cell->depth == 1 && ++tries < INSERTIONS) {
            if (status == FERRETGOLD_OK && way != PLAIN) {
                take_back(cell->in_use, it);
            }
            run_deleters(cell);
        } else if (status == FERRETGOLD_OK || !may_retry(cell, status, &changes)) {
            return status;
        }
        cell->in_use->untaken = true;
        status = insert_once(cell->in_use, it, way);
        note_try(cell->in_use, it);
    }
}

/* Gives the handle back that nobody wants: what stands alone is the caller's again. */
static void give_up_handle(object_client *client, insertion *it) {
    if (it->placing == FERRETGOLD_STANDALONE) {
        take_back(client, it);
        it->placing = FERRETGOLD_DROPPED;
    } else {
        unpin(client, it);
    }
}

/* Goes on behind the first try of a call, and ends the call. */
SLOWLY static outcome insert_further(object_cell *cell, insertion *it, way way, uint32_t status,
                                     const ferretgold_object_handle **handle) {
    object_client *client = cell->in_use;
    client->untaken = true;
    it->turns = 0;
    note_try(client, it);
    if (status != FERRETGOLD_OK || it->list_full) {
        status = insert_again(cell, it, way, status);
        client = cell->in_use;
    }
    if (way == COLD && status == FERRETGOLD_OK) {
        give_up_handle(client, it);
    }
    const outcome all = {status, status == FERRETGOLD_OK ? it->placing : FERRETGOLD_DROPPED};
    uint64_t *number = outcome_of(&client->counts, status, all.placing, it->met);
    if (number != NULL) {
        count_more(number);
        count_more(class_of(&client->counts, it->turns));
    }
    if (all.placing == FERRETGOLD_DROPPED) {
        owned_ends(client->cache->owned, OBJECT_OF(it), it->value.kind);
    }
    if (way == PINNED && status == FERRETGOLD_OK) {
        *handle = shown_of(client, it);
    }
    (void)leave(cell, status);
    return all;
}

/* What an insertion comes to for which no client is to be had: with a handle its object stands
 * alone, if there is a record for it. */
static uint32_t judged(ferretgold_object_cache *cache, const insertion *it, way way,
                       record **spare) {
    if (it->priority >= PRIORITIES) {
        return FERRETGOLD_BAD_PRIORITY;
    }
    if (it->charge == 0) {
        return FERRETGOLD_NO_CHARGE;
    }
    if (it->value.address >> ADDRESS_BITS != 0) {
        return FERRETGOLD_TOO_HIGH;
    }
    *spare = way == PINNED ? spare_taken(cache) : NULL;
    return way == PINNED && *spare == NULL ? FERRETGOLD_NO_CLIENT : FERRETGOLD_OK;
}

static outcome insert_nowhere(ferretgold_object_cache *cache, const insertion *it, way way,
                              const ferretgold_object_handle **handle) {
    record *spare = NULL;
    const uint32_t status = judged(cache, it, way, &spare);
    const outcome all = {status, spare != NULL ? FERRETGOLD_STANDALONE : FERRETGOLD_DROPPED};
    uint64_t *number = outcome_of(&cache->nowhere, status, all.placing, false);
    if (number != NULL) {
        count_together(number);
        count_together(&cache->nowhere.by_turns[0]);
    }
    if (spare != NULL) {
        *handle = shown(spare, 0, it->key, &it->value, it->charge);
    } else {
        owned_ends(cache->owned, OBJECT_OF(it), it->value.kind);
    }
    return all;
}

/* An insertion whose call doesn't begin at once. */
SLOWLY static outcome insert_slowly(ferretgold_object_cache *cache, insertion *it, way way,
                                    const ferretgold_object_handle **handle, const char *call) {
    object_cell *cell = enter(cache);
    (void)call;
    owned_begins(cache->owned, OBJECT_OF(it), it->value.kind, call);
    if (cell == NULL) {
        return insert_nowhere(cache, it, way, handle);
    }
    return insert_further(cell, it, way, insert_once(cell->in_use, it, way), handle);
}

/* Most are by the thread's own client, and place the object. */
QUICKLY outcome insert(ferretgold_object_cache *cache, insertion *it, way way,
                       const ferretgold_object_handle **handle, const char *call) {
    object_cell *cell = cell_at_home(cache);
    object_client *client = cell->client;
    if (RARELY(!is_ready(cache, cell)) || RARELY(!entered_plainly(client, cell, 0))) {
        return insert_slowly(cache, it, way, handle, call);
    }
    cell->ready = 0;
    owned_begins(cache->owned, OBJECT_OF(it), it->value.kind, call);
    const uint32_t status = insert_once(client, it, way);
    if (RARELY(status != FERRETGOLD_OK) || RARELY(it->placing != FERRETGOLD_PLACED)) {
        return insert_further(cell, it, way, status, handle);
    }
    it->freed = false;
    if (way == COLD) {
        unpin(client, it);
    }
    if (way == PINNED) {
        *handle = shown_of(client, it);
    }
    count_placed(cell, client, it);
    if (RARELY(it->freed)) {
        delete_gone(cell);
    }
    end_at_once(cell, client);
    return (outcome){FERRETGOLD_OK, FERRETGOLD_PLACED};
}

/* Tells what it came to. */
static inline ferretgold_status tell(outcome all, ferretgold_inserted *inserted) {
    if (all.status == FERRETGOLD_OK && inserted != NULL) {
        *inserted = (ferretgold_inserted)all.placing;
    }
    return (ferretgold_status)all.status;
}

ferretgold_status ferretgold_object_insert(ferretgold_object_cache *cache,
                                           const ferretgold_key *key, void *object, uint16_t kind,
                                           uint32_t charge, ferretgold_priority priority,
                                           ferretgold_inserted *inserted) {
    if (RARELY(cache == NULL) || RARELY(key == NULL)) {
        return FERRETGOLD_NULL;
    }
    insertion it;
    ask(&it, key, object, kind, charge, priority);
    return tell(insert(cache, &it, PLAIN, NULL, __func__), inserted);
}

ferretgold_status ferretgold_object_insert_pinned(ferretgold_object_cache *cache,
                                                  const ferretgold_key *key, void *object,
                                                  uint16_t kind, uint32_t charge,
                                                  ferretgold_priority priority,
                                                  ferretgold_inserted *inserted,
                                                  const ferretgold_object_handle **handle) {
    if (RARELY(cache == NULL) || RARELY(key == NULL)) {
        return FERRETGOLD_NULL;
    }
    insertion it;
    ask(&it, key, object, kind, charge, priority);
    return tell(handle == NULL ? insert(cache, &it, COLD, NULL, __func__)
                               : insert(cache, &it, PINNED, handle, __func__),
                inserted);
}

bool ferretgold_object_put(ferretgold_object_cache *cache, const ferretgold_key *key, void *object,
                           uint16_t kind, uint32_t charge, ferretgold_priority priority) {
    insertion it;
    ask(&it, key, object, kind, charge, priority);
    return insert(cache, &it, COLD, NULL, __func__).placing == FERRETGOLD_PLACED;
}

/* ---- Erasing --------------------------------------------------------------------------------- */

ferretgold_status ferretgold_object_erase(ferretgold_object_cache *cache,
                                          const ferretgold_key *key, uint32_t *hidden) {
    if (cache == NULL || key == NULL) {
        return FERRETGOLD_NULL;
    }
    object_cell *it = enter(cache);
    if (it == NULL) {
        return FERRETGOLD_NO_CLIENT;
    }
    uint32_t ignored = 0;
    it->in_use->untaken = true;
    return leave(it, ferretgold_raw_object_erase(&it->in_use->session, key,
                                                 hidden != NULL ? hidden : &ignored));
}
