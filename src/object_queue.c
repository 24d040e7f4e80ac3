/* Handles that other threads than their client's give back: on the client's queue, which whoever is
 * in a call of the client empties. */
#include "object.h"

/* The newest is the first on the queue. Who takes it takes all that is on it by one exchange, so
 * that a record which is found at its front by two loads stands above the same one. */
uint32_t record_pushed(object_client *client, record *it, bool useful, bool erase_if_last) {
    record *head = atomic_load_explicit(&client->queue, memory_order_relaxed);
    uint16_t depth = 0;
    it->useful = useful;
    it->erase_if_last = erase_if_last;
    do {
        it->shows.object = head;
        depth = head != NULL ? atomic_load_explicit(&head->depth, memory_order_relaxed) : 0;
        depth = (uint16_t)(depth + 1);
        atomic_store_explicit(&it->depth, depth, memory_order_relaxed);
    } while (!atomic_compare_exchange_weak_explicit(&client->queue, &head, it, memory_order_acq_rel,
                                                    memory_order_relaxed));
    return depth;
}

/* The next record that was given back; null if there is none. What stands behind it is kept apart
 * first: its place may be used again once its handle is given back. */
static record *taken_next(object_client *client) {
    record *it = atomic_load_explicit(&client->backlog, memory_order_relaxed);
    if (it == NULL) {
        it = atomic_exchange(&client->queue, NULL);
    }
    if (it != NULL) {
        record *next = it->shows.object;
        atomic_store_explicit(&client->backlog, next, memory_order_relaxed);
    }
    return it;
}

bool records_given_back(object_client *client, uint32_t most) {
    for (record *it = NULL; most > 0 && (it = taken_next(client)) != NULL; most--) {
        bool freed = false;
        (void)ferretgold_raw_object_release(&client->session, &it->handle, it->useful,
                                            it->erase_if_last, &freed);
        client->untaken |= freed;
    }
    return most == 0;
}

/* ---- Spare records --------------------------------------------------------------------------- */

/* The count of changes keeps one that was taken and put back meanwhile from being taken for the
 * same. */
static uint64_t spares_with(uint64_t seen, uint16_t first) {
    return ((seen >> 32) + 1) << 32 | first;
}

record *spare_taken(ferretgold_object_cache *cache) {
    uint64_t seen = atomic_load(&cache->spares);
    uint32_t first;
    uint16_t next;
    do {
        first = (uint32_t)seen;
        if (first == 0) {
            return NULL;
        }
        next = atomic_load(&cache->spare[first - 1].depth);
    } while (!atomic_compare_exchange_weak(&cache->spares, &seen, spares_with(seen, next)));
    return &cache->spare[first - 1];
}

void spare_given_back(ferretgold_object_cache *cache, record *it) {
    const uint16_t first = (uint16_t)(it - cache->spare + 1);
    uint64_t seen = atomic_load(&cache->spares);
    do {
        atomic_store(&it->depth, (uint16_t)seen);
    } while (!atomic_compare_exchange_weak(&cache->spares, &seen, spares_with(seen, first)));
}
