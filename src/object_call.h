/* A call on a cache of objects from its beginning to its end: in the thread's own client at once, if
 * nothing else is to be done first, or slowly. */
#ifndef OBJECT_CALL_H
#define OBJECT_CALL_H

#include "object.h"

/* ---- object_call.c --------------------------------------------------------------------------- */

/* Begins a call where more is to be done than that: null if no client is to be had. */
object_cell *enter_slowly(ferretgold_object_cache *cache);

/* Begins a call that only this client can serve; null if the thread hasn't it at hand. */
object_cell *enter_own(object_client *client);

/* Runs the deleters of all that is on the list of a call's client, or is of none: what their calls
 * put there, too. */
SLOWLY void run_deleters(object_cell *it);

/* The same where nothing is known but that the list may have something: of what an insertion freed. */
APART void delete_gone(object_cell *it);

/* Runs the deleter of one object of no client. Whether there was one. */
bool has_deleted_alone(ferretgold_object_cache *cache, object_cell *cell);

/* Whether a call that this status refuses is to be tried again: other threads gave back handles of
 * its client, or it has another client now. */
bool may_retry(object_cell *it, uint32_t status, uint32_t *changes);

/* Gives back what waits on a client that is in no call; and on all of them. */
void relieve(object_cell *it, object_client *client);
void relieve_all(ferretgold_object_cache *cache);

/* ---- Beginning ------------------------------------------------------------------------------- */

/* A thread is in a call of this client: the first one, whose deleters' calls go through it, too. */
static inline void begin(object_cell *it, object_client *client) {
    it->in_use = client;
    it->depth = 1;
    it->ready = 0;
}

/* Whether the cell in a cache's home is the cache's, has a client, and is in no call. */
static inline bool is_ready(const ferretgold_object_cache *cache, const object_cell *it) {
    return it->ready == cache->life;
}

/* Whether the client of such a cell began a call, as client_entered has it: not where handles wait on
 * its queue either, or the caller has another reason, which isn't 0 then. Its claim is the token, or
 * one more, so that one sum shows all three. */
static inline bool entered_plainly(object_client *client, const object_cell *it,
                                   uint64_t reason) {
    atomic_store_explicit(&client->inside, true, memory_order_relaxed);
    atomic_signal_fence(memory_order_seq_cst);
    const uint64_t claim = atomic_load_explicit(&client->claim, memory_order_acquire);
    const record *queue = atomic_load_explicit(&client->queue, memory_order_relaxed);
    if (RARELY(claim + (uintptr_t)queue + reason != it->token)) {
        atomic_store_explicit(&client->inside, false, memory_order_release);
        return false;
    }
    client_used(client);
    return true;
}

/* Begins a call that needs a client: the thread's cell of the cache; null if none is to be had. */
QUICKLY object_cell *enter(ferretgold_object_cache *cache) {
    object_cell *it = cell_at_home(cache);
    object_client *client = it->client;
    if (RARELY(!is_ready(cache, it)) || RARELY(!entered_plainly(client, it, 0))) {
        return enter_slowly(cache);
    }
    begin(it, client);
    return it;
}

/* ---- Ending ---------------------------------------------------------------------------------- */

/* Ends the first call of a thread. */
static inline void end(object_cell *it) {
    object_client *client = it->client;
    if (RARELY(it->in_use != client)) {
        client_unclaimed(it->in_use);
        it->in_use = client;
    } else {
        client_left(client);
    }
    const bool ready = client != NULL && !has_backlog(client);
    it->ready = ready ? it->life : 0;
    it->depth = ready;
}

/* Ends one that began at once: its deleters' calls changed neither its client nor the backlog. */
static inline void end_at_once(object_cell *it, object_client *client) {
    it->ready = it->life;
    client_left(client);
}

/* Ends a call: the first of a thread runs the deleters of what was freed. */
static inline ferretgold_status leave(object_cell *it, uint32_t status) {
    if (RARELY(it->depth > 1)) {
        it->depth -= 1;
        return (ferretgold_status)status;
    }
    if (it->in_use->untaken) {
        run_deleters(it);
    }
    end(it);
    return (ferretgold_status)status;
}

#endif
