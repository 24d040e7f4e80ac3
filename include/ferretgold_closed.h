/*
 * ferretgold_closed.h - what is left of a cache that was closed: its entries and its words, as its
 * clients left them.
 *
 * What ferretgold.h says of refusals and of what isn't checked holds here too.
 *
 *     ferretgold_closed *closed;
 *     ferretgold_entry entry;
 *     if (ferretgold_close_keeping(cache, &closed) != FERRETGOLD_OK) ...
 *     for (uint32_t shard = 0; shard < config.shards; shard++)
 *         for (uint32_t slot = 0; slot < config.slots; slot++)
 *             if (ferretgold_closed_entry(closed, shard, slot, &entry) == FERRETGOLD_OK)
 *                 ... ferretgold_closed_value(closed, shard, slot, buffer, sizeof buffer, &length) ...
 *     ferretgold_closed_free(closed);
 *
 * OBJECTS AND THREADS
 *   What is left of a cache is read and freed on the thread that closed it. Nothing of it changes
 *   any more: a reading gives the same each time, and makes no atomic step.
 *
 * SLOTS
 *   Shards and slots count from 0. A call that reads one refuses OUT_OF_RANGE, if the cache had no
 *   such shard, or the shard no such slot. Each costs the same for every slot.
 */
#ifndef FERRETGOLD_CLOSED_H
#define FERRETGOLD_CLOSED_H

#include "ferretgold.h"

#ifdef __cplusplus
extern "C" {
#endif

/* An entry that was left. */
typedef struct ferretgold_entry {
    ferretgold_key key;
    size_t length;   /* of its value, in bytes */
    uint32_t charge;
    uint32_t uses;   /* its countdown: 3, 2 or 1 at first, by its priority; a use adds 1; a visit of
                        the clock takes 1 and leaves at most 2, and evicts it at 0 */
    bool visible;    /* whether look-ups found it: if not, it was erased */
    bool hit;        /* whether a look-up marked it */
} ferretgold_entry;

/* What is left of a cache. */
typedef struct ferretgold_closed ferretgold_closed;

/* ---- Closing --------------------------------------------------------------------------------- */

/*
 * Ends a cache whose clients are all back, as ferretgold_close does, and keeps what is left of it
 * until ferretgold_closed_free. The cache's pointer stands for nothing from then on, nor do those of
 * its clients.
 *
 * Allocates 5,712 bytes, and frees all but the shards' tables. Costs at each shard a load for each
 * client.
 *
 * Refuses CLIENTS_OUT; OUT_OF_MEMORY. After a refusal the cache works on.
 */
ferretgold_status ferretgold_close_keeping(ferretgold_cache *cache, ferretgold_closed **closed);

/* Frees it, unless it is null. Its pointer stands for nothing from then on. */
void ferretgold_closed_free(ferretgold_closed *closed);

/* ---- Reading --------------------------------------------------------------------------------- */

/* The configuration that the cache was opened with. */
ferretgold_status ferretgold_closed_config(const ferretgold_closed *closed,
                                           ferretgold_config *config);

/* What ferretgold_close returns. Costs at each shard two loads, two for each slot, and one for each
 * entry. */
ferretgold_status ferretgold_closed_totals(ferretgold_closed *closed, ferretgold_totals *totals);

/*
 * The entry of a slot. Costs five loads.
 *
 * MISS: the slot has none. Refuses OUT_OF_RANGE.
 */
ferretgold_status ferretgold_closed_entry(ferretgold_closed *closed, uint32_t shard, uint32_t slot,
                                          ferretgold_entry *entry);

/*
 * Copies the value of a slot's entry to the front of a buffer of `capacity` bytes; `length` gets its
 * length. The rest of the buffer stays. `buffer` may be null if `capacity` is 0, and `length` may be
 * null. Costs six loads, and one for each eight bytes.
 *
 * MISS: the slot has no entry. Refuses OUT_OF_RANGE; TOO_SHORT, and then `length` gets how many
 * bytes the value has, and the buffer stays.
 */
ferretgold_status ferretgold_closed_value(ferretgold_closed *closed, uint32_t shard, uint32_t slot,
                                          void *buffer, size_t capacity, size_t *length);

/* The meta word of a slot; how often it stands in the trails of its shard's entries; where the hand
 * of a shard's clock stands: for tests and tools. Each costs a load, and refuses OUT_OF_RANGE. */
ferretgold_status ferretgold_closed_word(ferretgold_closed *closed, uint32_t shard, uint32_t slot,
                                         uint64_t *word);

ferretgold_status ferretgold_closed_displacement(ferretgold_closed *closed, uint32_t shard,
                                                 uint32_t slot, uint64_t *displacement);

ferretgold_status ferretgold_closed_hand(ferretgold_closed *closed, uint32_t shard,
                                         uint64_t *hand);

#ifdef __cplusplus
}
#endif

#if defined(__cplusplus)
static_assert(sizeof(ferretgold_entry) == 40, "ferretgold: ferretgold_entry has another size here");
#else
_Static_assert(sizeof(ferretgold_entry) == 40, "ferretgold: ferretgold_entry has another size here");
#endif

#endif
