/* What a cache of objects holds, and what the calls on it came to. */
#include "object_call.h"
#include "counts.h"

#include <string.h>

/* ---- Totals ---------------------------------------------------------------------------------- */

/* Has a client tell one of its totals, without what waits on queues. */
static ferretgold_status told(ferretgold_object_cache *cache,
                              uint64_t (*total)(ferretgold_object *client), uint64_t *number) {
    if (cache == NULL || number == NULL) {
        return FERRETGOLD_NULL;
    }
    relieve_all(cache);
    object_cell *it = enter(cache);
    if (it == NULL) {
        return FERRETGOLD_NO_CLIENT;
    }
    *number = total(&it->in_use->session);
    return leave(it, FERRETGOLD_OK);
}

ferretgold_status ferretgold_object_usage(ferretgold_object_cache *cache, uint64_t *usage) {
    return told(cache, ferretgold_raw_object_usage, usage);
}

ferretgold_status ferretgold_object_pinned_usage(ferretgold_object_cache *cache, uint64_t *usage) {
    return told(cache, ferretgold_raw_object_pinned_usage, usage);
}

ferretgold_status ferretgold_object_occupancy(ferretgold_object_cache *cache,
                                              uint64_t *occupancy) {
    return told(cache, ferretgold_raw_object_occupancy, occupancy);
}

/* ---- Counts ---------------------------------------------------------------------------------- */

ferretgold_status ferretgold_object_cache_counts(const ferretgold_object_cache *cache,
                                                 ferretgold_counts *counts) {
    if (cache == NULL || counts == NULL) {
        return FERRETGOLD_NULL;
    }
    memset(counts, 0, sizeof *counts);
    for (uint32_t number = 0; number < cache->config.clients; number++) {
        counts_added(&cache->client[number].counts, counts);
    }
    counts_added(&cache->nowhere, counts);
    return FERRETGOLD_OK;
}

ferretgold_status ferretgold_object_client_counts(const ferretgold_object_cache *cache,
                                                  uint32_t number, ferretgold_counts *counts) {
    if (cache == NULL || counts == NULL) {
        return FERRETGOLD_NULL;
    }
    if (number > cache->config.clients) {
        return FERRETGOLD_OUT_OF_RANGE;
    }
    memset(counts, 0, sizeof *counts);
    counts_added(number < cache->config.clients ? &cache->client[number].counts : &cache->nowhere,
                 counts);
    return FERRETGOLD_OK;
}
