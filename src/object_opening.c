/* Opening and closing a cache of objects. All its memory is allocated when it is opened. */
#include "object.h"
#include "limits.h"
#include "opening.h"

#include <stdlib.h>
#include <string.h>

/* ---- Sizes ----------------------------------------------------------------------------------- */

ferretgold_status ferretgold_object_config_check(const ferretgold_object_config *config) {
    if (config == NULL) {
        return FERRETGOLD_NULL;
    }
    if (config->size != 0 && config->size != sizeof *config) {
        return FERRETGOLD_BAD_SIZE;
    }
    return (ferretgold_status)ferretgold_raw_object_config_check(config);
}

/* What this file allocates. */
static uint64_t own_memory(const ferretgold_object_config *config) {
    const uint64_t records = (config->handles + UINT64_C(1)) * sizeof(record);
    return sizeof(ferretgold_object_cache) + config->clients * (sizeof(object_client) + records);
}

uint64_t ferretgold_object_memory(const ferretgold_object_config *config) {
    if (ferretgold_object_config_check(config) != FERRETGOLD_OK) {
        return 0;
    }
    const uint64_t shards = config->shards, clients = config->clients;
    const uint64_t table = config->slots * UINT64_C(64) + 32; /* with the ledgers behind them */
    const uint64_t lists = 24 * (uint64_t)config->gone + 128 * (uint64_t)config->handles;
    const uint64_t client = 872 + 72 * shards + lists;
    return shards * (176 + taken(table)) + clients * client + 6256 + own_memory(config);
}

/* ---- Opening --------------------------------------------------------------------------------- */

/* Gives up what was made of a cache that isn't opened. */
static ferretgold_status not_opened(ferretgold_object_cache *it, uint32_t status) {
    ferretgold_object kept = {NULL};
    if (it->left.at != NULL) {
        (void)ferretgold_raw_objects_end(it->left, &kept);
    }
#ifdef FERRETGOLD_CHECK
    owned_freed(it->owned);
#endif
    free(it);
    return (ferretgold_status)status;
}

/* A cache of this file, with no session yet: NULL if memory is refused. */
static ferretgold_object_cache *made(const ferretgold_object_config *config) {
    static _Atomic(uint64_t) lives = 0;
    const uint64_t size = own_memory(config);
    ferretgold_object_cache *it = aligned_alloc(LINE, size);
    if (it == NULL) {
        return NULL;
    }
    memset(it, 0, size);
    it->config = *config;
    it->life = atomic_fetch_add(&lives, 1) + 1;
    it->home = (char *)&object_self.cell[it->life % CELLS] - THREAD_BASE;
    it->client = (object_client *)(void *)(it + 1);
    it->spare = (record *)(void *)&it->client[config->clients];
    record *records = it->spare + config->clients;
    for (uint32_t number = 0; number < config->clients; number++) {
        object_client *client = &it->client[number];
        client->cache = it;
        client->number = number;
        client->records = &records[(size_t)number * config->handles];
        client->size = config->handles * sizeof(record);
        it->spare[number].more = GIVEN_BACK;
        for (uint32_t k = 0; k < config->handles; k++) {
            client->records[k].handle.index = k;
            client->records[k].handle.client = number;
            client->records[k].more = GIVEN_BACK;
        }
    }
    return it;
}

static void spares_begin(ferretgold_object_cache *it) {
    for (uint32_t k = 0; k < it->config.clients; k++) {
        it->spare[k].handle.client = NOWHERE;
        it->spare[k].handle.cache = it->number;
        spare_given_back(it, &it->spare[k]);
    }
}

/* The proved cache and its sessions. */
static uint32_t opened(ferretgold_object_cache *it) {
    ferretgold_object session[MOST_CLIENTS] = {{NULL}};
    ferretgold_object_config proved = it->config;
    proved.seed = seed_proved(proved.seed);
    const uint32_t count = it->config.clients;
    uint32_t status = ferretgold_raw_objects_open(&it->left);
    if (status == FERRETGOLD_OK) {
        it->number = cache_number();
        status = ferretgold_raw_object_open(&proved, it->number, session, count, &it->cache);
    }
    for (uint32_t number = 0; number < count; number++) {
        it->client[number].session = session[number];
        for (uint32_t k = 0; k < it->config.handles; k++) {
            it->client[number].records[k].handle.cache = it->number;
        }
    }
    spares_begin(it);
    return status;
}

ferretgold_status ferretgold_object_open(const ferretgold_object_config *config,
                                         ferretgold_deleter deleter, void *context,
                                         ferretgold_object_cache **cache) {
    if (config == NULL || deleter == NULL || cache == NULL) {
        return FERRETGOLD_NULL;
    }
    uint32_t status = ferretgold_object_config_check(config);
    if (status != FERRETGOLD_OK) {
        return (ferretgold_status)status;
    }
    ferretgold_object_config seeded = *config;
    status = seed_drawn(&seeded.seed);
    if (status != FERRETGOLD_OK) {
        return (ferretgold_status)status;
    }
    ferretgold_object_cache *it = made(&seeded);
    if (it == NULL) {
        return FERRETGOLD_OUT_OF_MEMORY;
    }
    it->deleter = deleter;
    it->context = context;
#ifdef FERRETGOLD_CHECK
    it->owned = owned_made(config);
    if (it->owned == NULL) {
        return not_opened(it, FERRETGOLD_OUT_OF_MEMORY);
    }
#endif
    status = opened(it);
    if (status != FERRETGOLD_OK) {
        return not_opened(it, status);
    }
    claims_begin();
    *cache = it;
    return FERRETGOLD_OK;
}

PLAINLY(ferretgold_object_open);

ferretgold_status ferretgold_object_config_of(const ferretgold_object_cache *cache,
                                              ferretgold_object_config *config) {
    if (cache == NULL || config == NULL) {
        return FERRETGOLD_NULL;
    }
    *config = cache->config;
    return FERRETGOLD_OK;
}

ferretgold_status ferretgold_object_owns(ferretgold_object_cache *cache, uint16_t kind) {
    if (cache == NULL) {
        return FERRETGOLD_NULL;
    }
#ifdef FERRETGOLD_CHECK
    owned_kind(cache->owned, kind);
#endif
    (void)kind;
    return FERRETGOLD_OK;
}

/* ---- Closing --------------------------------------------------------------------------------- */

/* Whether no thread is in a call, as far as this one can see. */
static bool is_quiet(ferretgold_object_cache *cache) {
    for (uint32_t number = 0; number < cache->config.clients; number++) {
        object_client *client = &cache->client[number];
        if (atomic_load(&client->inside) || (atomic_load(&client->claim) & CLAIMED) != 0) {
            return false;
        }
    }
    return true;
}

/* Takes all spare records; whether none was in use. */
static bool spares_ended(ferretgold_object_cache *cache) {
    uint32_t count = 0;
    record *taken = NULL;
    for (record *it = NULL; (it = spare_taken(cache)) != NULL; count++) {
        it->shows.object = taken;
        taken = it;
    }
    if (count == cache->config.clients) {
        return true;
    }
    while (taken != NULL) {
        record *next = taken->shows.object;
        spare_given_back(cache, taken);
        taken = next;
    }
    return false;
}

/* Claims all clients. Nobody is in a call, so none looks at a claim meanwhile. */
static void claim_all(ferretgold_object_cache *cache) {
    for (uint32_t number = 0; number < cache->config.clients; number++) {
        atomic_fetch_or(&cache->client[number].claim, CLAIMED);
    }
}

static void unclaim_all(ferretgold_object_cache *cache) {
    for (uint32_t number = 0; number < cache->config.clients; number++) {
        client_unclaimed(&cache->client[number]);
    }
}

/* Gives back all that waits, and runs deleters, whose calls may give back more. */
static void settle_all(ferretgold_object_cache *cache, object_cell *it) {
    for (bool again = true; again;) {
        again = false;
        for (uint32_t number = 0; number < cache->config.clients; number++) {
            object_client *client = &cache->client[number];
            if (has_returned(client) || client->untaken) {
                it->in_use = client;
                again = true;
                give_back_all(it);
            }
        }
    }
}

/* Ends the proved cache, whose clients are all claimed. */
static uint32_t ended(ferretgold_object_cache *cache) {
    ferretgold_object session[MOST_CLIENTS];
    ferretgold_object kept = {NULL};
    const uint32_t count = cache->config.clients;
    for (uint32_t number = 0; number < count; number++) {
        session[number] = cache->client[number].session;
    }
    const uint32_t status =
        ferretgold_raw_object_close(cache->cache, session, count, &cache->left, &kept);
    if (status != FERRETGOLD_OK) {
        cache->cache = kept;
    }
    return status;
}

/* Hands out what a closed cache had left, and ends it. */
static void free_left(ferretgold_object_cache *cache) {
    ferretgold_object kept = {NULL};
    ferretgold_key key = {0, 0};
    ferretgold_object_value value = {0, 0};
    while (ferretgold_raw_objects_next(&cache->left, &key, &value) == FERRETGOLD_OK) {
        delete_object(cache, &key, &value);
    }
    (void)ferretgold_raw_objects_end(cache->left, &kept);
#ifdef FERRETGOLD_CHECK
    owned_freed(cache->owned);
#endif
    free(cache);
}

ferretgold_status ferretgold_object_close(ferretgold_object_cache *cache) {
    if (cache == NULL) {
        return FERRETGOLD_NULL;
    }
    object_cell *it = cell_of(cache);
    if (it == NULL || is_in_call(it) || !is_quiet(cache)) {
        return FERRETGOLD_CLIENTS_OUT;
    }
    claim_all(cache);
    it->ready = 0;
    it->depth = 1;
    settle_all(cache, it);
    it->depth = 0;
    const bool are_back = spares_ended(cache);
    const uint32_t status = are_back ? ended(cache) : FERRETGOLD_HANDLES_OUT;
    if (status != FERRETGOLD_OK) {
        if (are_back) {
            spares_begin(cache);
        }
        unclaim_all(cache);
        return (ferretgold_status)status;
    }
    free_left(cache);
    return FERRETGOLD_OK;
}
