/* Walks over a cache that runs, slot by slot; those over bytes by the calls of ferretgold.h. They are
 * tested, not proved; that looking at a slot leaves uses, marks and counts is. */
#include "walk.h"

/* ---- Of bytes and of objects ----------------------------------------------------------------- */

ferretgold_status looked_at(ferretgold_place *place, uint64_t most, uint32_t shards, uint32_t slots,
                            look_at *look, void *walk) {
    if (place->slot >= slots) {
        return FERRETGOLD_MISS;
    }
    bool more = true;
    for (uint64_t left = most; more && left > 0 && place->shard < shards; left--) {
        ferretgold_status status;
        more = look(walk, place, &status);
        if (status > FERRETGOLD_MISS) {
            return status;
        }
        place->slot = (place->slot + 1) % slots;
        place->shard += place->slot == 0;
    }
    return place->shard < shards ? FERRETGOLD_OK : FERRETGOLD_MISS;
}

/* ---- A walk of a client's -------------------------------------------------------------------- */

typedef struct client_walk {
    ferretgold_client *client;
    ferretgold_visit *visit;
    void *context;
} client_walk;

static bool visited(void *walk, const ferretgold_place *place, ferretgold_status *status) {
    const client_walk *it = walk;
    ferretgold_held_entry held;
    *status = ferretgold_pin_at(it->client, place->shard, place->slot, &held);
    if (*status != FERRETGOLD_OK) {
        return *status == FERRETGOLD_MISS;
    }
    const bool more = it->visit(it->context, &held);
    (void)ferretgold_release(it->client, held.handle, false, false, NULL);
    return more;
}

ferretgold_status ferretgold_walk(ferretgold_client *client, ferretgold_place *place,
                                  uint64_t slots, ferretgold_visit *visit, void *context) {
    client_walk it = {client, visit, context};
    ferretgold_config config;
    if (client == NULL || place == NULL || visit == NULL) {
        return FERRETGOLD_NULL;
    }
    if (!client_config(client, &config)) {
        return FERRETGOLD_NO_CLIENT;
    }
    return looked_at(place, slots, config.shards, config.slots, visited, &it);
}

/* ---- Erasing what is meant ------------------------------------------------------------------- */

/* What is to be hidden, and how many were. */
typedef struct hiding {
    ferretgold_client *client;
    ferretgold_meant *meant;
    void *context;
    uint64_t hidden;
    ferretgold_status status; /* of the last erasure */
} hiding;

static bool hide_meant(void *to, const ferretgold_held_entry *held) {
    hiding *it = to;
    uint32_t hidden = 0;
    if (it->meant != NULL && !it->meant(it->context, &held->key)) {
        return true;
    }
    it->status = ferretgold_erase(it->client, &held->key, &hidden);
    it->hidden += hidden;
    return it->status == FERRETGOLD_OK;
}

ferretgold_status ferretgold_erase_where(ferretgold_client *client, ferretgold_meant *meant,
                                         void *context, uint64_t *hidden) {
    hiding it = {client, meant, context, 0, FERRETGOLD_OK};
    ferretgold_place place = {0, 0};
    if (client == NULL) {
        return FERRETGOLD_NULL;
    }
    const ferretgold_status status = ferretgold_walk(client, &place, UINT64_MAX, hide_meant, &it);
    if (hidden != NULL) {
        *hidden = it.hidden;
    }
    return status > FERRETGOLD_MISS ? status : it.status;
}
