/* Walks over a cache of objects that runs, slot by slot, by the calls of ferretgold_object.h. They are
 * tested, not proved; that looking at a slot leaves uses, marks and counts is. */
#include "object.h"
#include "walk.h"

/* ---- A walk ---------------------------------------------------------------------------------- */

typedef struct object_walk {
    ferretgold_object_cache *cache;
    ferretgold_object_visit *visit;
    void *context;
} object_walk;

static bool visited(void *walk, const ferretgold_place *place, ferretgold_status *status) {
    const object_walk *it = walk;
    const ferretgold_object_handle *handle = NULL;
    *status = ferretgold_object_pin_at(it->cache, place->shard, place->slot, &handle);
    if (*status != FERRETGOLD_OK) {
        return *status == FERRETGOLD_MISS;
    }
    const bool more = it->visit(it->context, handle);
    (void)ferretgold_object_release(it->cache, handle, false, false, NULL);
    return more;
}

ferretgold_status ferretgold_object_walk(ferretgold_object_cache *cache,
                                         ferretgold_object_place *place, uint64_t slots,
                                         ferretgold_object_visit *visit, void *context) {
    object_walk it = {cache, visit, context};
    if (cache == NULL || place == NULL || visit == NULL) {
        return FERRETGOLD_NULL;
    }
    return looked_at(place, slots, cache->config.shards, cache->config.slots, visited, &it);
}

/* ---- Erasing what is meant ------------------------------------------------------------------- */

/* What is to be hidden, and how many were. */
typedef struct hiding {
    ferretgold_object_cache *cache;
    ferretgold_meant *meant;
    void *context;
    uint64_t hidden;
    ferretgold_status status; /* of the last erasure */
} hiding;

static bool hide_meant(void *to, const ferretgold_object_handle *handle) {
    hiding *it = to;
    uint32_t hidden = 0;
    if (it->meant != NULL && !it->meant(it->context, &handle->key)) {
        return true;
    }
    it->status = ferretgold_object_erase(it->cache, &handle->key, &hidden);
    it->hidden += hidden;
    return it->status == FERRETGOLD_OK;
}

ferretgold_status ferretgold_object_erase_where(ferretgold_object_cache *cache,
                                                ferretgold_meant *meant, void *context,
                                                uint64_t *hidden) {
    hiding it = {cache, meant, context, 0, FERRETGOLD_OK};
    if (cache == NULL) {
        return FERRETGOLD_NULL;
    }
    const ferretgold_status status = walked(cache, hide_meant, &it);
    if (hidden != NULL) {
        *hidden = it.hidden;
    }
    return status > FERRETGOLD_MISS ? status : it.status;
}
