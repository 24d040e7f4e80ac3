/* What the calls of ferretgold.h do round the proved library, which ferretgold_raw.h declares: they
 * look for null pointers, and give out and take back clients. What of it is inline stands in
 * ferretgold_inline.h. It is tested, not proved.
 *
 * With FERRETGOLD_CHECK each call on a client looks whether another thread is in a call on it, and
 * ends the program then. */
#ifndef FERRETGOLD_CHECK
#define FERRETGOLD_INLINE extern inline /* so the functions of ferretgold_inline.h are here */
#endif
#include "ferretgold.h"
#include "ferretgold_object.h"
#include "ferretgold_raw.h"
#include "closed.h"
#include "counts.h"
#include "opening.h"
#include "walk.h"

#include <pthread.h>
#include <stdatomic.h>
#include <stdlib.h>
#include <string.h>

#ifdef FERRETGOLD_CHECK
static ferretgold_object *ferretgold_enter(ferretgold_client *client, const char *call);
static void ferretgold_quit(ferretgold_client *client);
#include "ferretgold_inline.h"
#include <stdio.h>
#endif

enum { LINE = 64, BITS = 64 };

ferretgold_status FERRETGOLD_OF_VERSION(ferretgold_idle)(void) {
    return FERRETGOLD_NO_CLIENT;
}

/* The clients that are idle, 64 in a row: a bit for each, in the one word or in the other. */
typedef struct ferretgold_row {
    _Alignas(LINE) _Atomic(uint64_t) idle;
    _Atomic(uint64_t) spent; /* idle, with no serial left */
} ferretgold_row;

struct ferretgold_cache {
    ferretgold_object cache; /* the proved library's */
    ferretgold_config config;
    ferretgold_client *client;
    _Alignas(LINE) ferretgold_row row[];
};

/* ---- Entering a client and leaving it, checked ----------------------------------------------- */

#ifdef FERRETGOLD_CHECK
static ferretgold_object *ferretgold_enter(ferretgold_client *client, const char *call) {
    const char *other = __atomic_exchange_n(&client->inside, call, __ATOMIC_SEQ_CST);
    if (other != NULL) {
        (void)fprintf(stderr, "ferretgold: two threads use client %zu at once: %s and %s\n",
                      (size_t)(client - client->cache->client), call, other);
        abort();
    }
    ferretgold_object *session = __atomic_load_n(&client->out, __ATOMIC_SEQ_CST);
    if (session == NULL) {
        __atomic_store_n(&client->inside, NULL, __ATOMIC_SEQ_CST);
    }
    return session;
}

static void ferretgold_quit(ferretgold_client *client) {
    __atomic_store_n(&client->inside, NULL, __ATOMIC_SEQ_CST);
}
#endif

/* ---- Clients that are idle ------------------------------------------------------------------- */

/* Takes one of a word's bits, at `first` or after it if one is there: its place, or BITS if the
 * word was seen 0. */
static uint32_t take_bit(_Atomic(uint64_t) *word, uint32_t first) {
    for (uint64_t seen = atomic_load(word); seen != 0; seen = atomic_load(word)) {
        uint32_t place = first;
        while ((seen >> place & 1) == 0) {
            place = (place + 1) % BITS;
        }
        const uint64_t bit = UINT64_C(1) << place;
        if ((atomic_fetch_and(word, ~bit) & bit) != 0) {
            return place;
        }
    }
    return BITS;
}

static uint32_t rows_for(uint32_t clients) {
    return (clients + BITS - 1) / BITS;
}

/* The client at which this thread begins to look for an idle one, of so many: always the same one, and
 * for most threads another. A variable of each thread's would cost one that first comes here memory, in
 * a library that is loaded late, or not let it be loaded so. */
static uint32_t home(uint32_t clients) {
    const uint64_t self = (uintptr_t)pthread_self();
    return (uint32_t)((self * UINT64_C(0x9e3779b97f4a7c15) >> 32) * clients >> 32);
}

/* Takes a client that is idle: one with serials left if this call found one. Its number, or the count of
 * all clients if each word was seen 0. */
static uint32_t take(ferretgold_cache *cache) {
    const uint32_t first = home(cache->config.clients);
    const uint32_t rows = rows_for(cache->config.clients);
    for (uint32_t spent = 0; spent < 2; spent++) {
        for (uint32_t k = 0; k < rows; k++) {
            const uint32_t at = (first / BITS + k) % rows;
            ferretgold_row *row = &cache->row[at];
            const uint32_t place = take_bit(spent ? &row->spent : &row->idle, first % BITS);
            if (place < BITS) {
                return at * BITS + place;
            }
        }
    }
    return cache->config.clients;
}

/* Puts a client back among those that are idle. */
static void put_back(ferretgold_client *client) {
    ferretgold_cache *cache = client->cache;
    const size_t number = (size_t)(client - cache->client);
    ferretgold_row *row = &cache->row[number / BITS];
    ferretgold_stats stats;
    ferretgold_raw_stats(&client->session, &stats);
    count_lost(&client->counts, stats.lost);
    const bool spent = ferretgold_raw_serials_left(&client->session) == 0;
    atomic_fetch_or(spent ? &row->spent : &row->idle, UINT64_C(1) << number % BITS);
}

bool cache_is_idle(ferretgold_cache *cache) {
    for (uint32_t number = 0; number < cache->config.clients; number++) {
        ferretgold_row *row = &cache->row[number / BITS];
        const uint64_t idle = atomic_load(&row->idle) | atomic_load(&row->spent);
        if ((idle >> number % BITS & 1) == 0) {
            return false;
        }
    }
    return true;
}

/* ---- Opening and closing --------------------------------------------------------------------- */

/* Ends a cache, whose clients are idle: what is left of it goes to `left`, or else to `totals` in
 * sum. */
static ferretgold_status end(ferretgold_cache *cache, ferretgold_totals *totals,
                             ferretgold_object *left) {
    ferretgold_object kept = {NULL};
    ferretgold_object session[MOST_CLIENTS];
    const uint32_t count = cache->config.clients;
    for (uint32_t number = count; number-- > 0;) {
        session[number] = cache->client[number].session;
    }
    const uint32_t status =
        left != NULL ? ferretgold_raw_close_keeping(cache->cache, session, count, left, &kept)
                     : ferretgold_raw_close(cache->cache, session, count, totals, &kept);
    free(cache);
    return (ferretgold_status)status;
}

ferretgold_cache *cache_made(const ferretgold_config *config) {
    const uint32_t rows = rows_for(config->clients);
    const size_t size = sizeof(ferretgold_cache) + rows * sizeof(ferretgold_row) +
                        config->clients * sizeof(ferretgold_client);
    ferretgold_cache *cache = aligned_alloc(LINE, size);
    if (cache == NULL) {
        return NULL;
    }
    memset(cache, 0, size);
    cache->config = *config;
    cache->client = (ferretgold_client *)(void *)&cache->row[rows];
    return cache;
}

ferretgold_status cache_begin(ferretgold_cache *it, uint32_t status, const opened_cache *opened,
                              ferretgold_cache **cache) {
    if (status != FERRETGOLD_OK) {
        free(it);
        return (ferretgold_status)status;
    }
    it->cache = opened->cache;
    for (uint32_t number = it->config.clients; number-- > 0;) {
        it->client[number].session = opened->client[number];
        it->client[number].cache = it;
        put_back(&it->client[number]);
    }
    *cache = it;
    return FERRETGOLD_OK;
}

/* Whether the library knows this size of a configuration. */
static bool knows_size(const ferretgold_config *config) {
    return config->size == 0 || config->size == sizeof *config;
}

ferretgold_status ferretgold_config_check(const ferretgold_config *config) {
    if (config == NULL) {
        return FERRETGOLD_NULL;
    }
    return knows_size(config) ? (ferretgold_status)ferretgold_raw_config_check(config)
                              : FERRETGOLD_BAD_SIZE;
}

ferretgold_status cache_judge(const ferretgold_config *config, ferretgold_cache **cache,
                              ferretgold_config *seeded) {
    const ferretgold_status status =
        cache == NULL ? FERRETGOLD_NULL : ferretgold_config_check(config);
    if (status != FERRETGOLD_OK) {
        return status;
    }
    *seeded = *config;
    return seed_drawn(&seeded->seed);
}

ferretgold_config cache_proved(const ferretgold_config *seeded) {
    ferretgold_config proved = *seeded;
    proved.seed = seed_proved(seeded->seed);
    return proved;
}

ferretgold_status ferretgold_open(const ferretgold_config *config, ferretgold_cache **cache) {
    ferretgold_config seeded;
    const ferretgold_status status = cache_judge(config, cache, &seeded);
    if (status != FERRETGOLD_OK) {
        return status;
    }
    opened_cache opened = {{NULL}, {{NULL}}};
    const ferretgold_config proved = cache_proved(&seeded);
    ferretgold_cache *it = cache_made(&seeded);
    if (it == NULL) {
        return FERRETGOLD_OUT_OF_MEMORY;
    }
    return cache_begin(it,
                       ferretgold_raw_open(&proved, cache_number(), opened.client, proved.clients,
                                           &opened.cache),
                       &opened, cache);
}

PLAINLY(ferretgold_open);

ferretgold_status ferretgold_config_of(const ferretgold_cache *cache, ferretgold_config *config) {
    if (cache == NULL || config == NULL) {
        return FERRETGOLD_NULL;
    }
    *config = cache->config;
    return FERRETGOLD_OK;
}

size_t ferretgold_value_limit(const ferretgold_cache *cache) {
    return cache != NULL ? sizeof(uint64_t) * cache->config.room : 0;
}

ferretgold_status ferretgold_cache_counts(const ferretgold_cache *cache,
                                          ferretgold_counts *counts) {
    if (cache == NULL || counts == NULL) {
        return FERRETGOLD_NULL;
    }
    memset(counts, 0, sizeof *counts);
    for (uint32_t number = 0; number < cache->config.clients; number++) {
        counts_added(&cache->client[number].counts, counts);
    }
    return FERRETGOLD_OK;
}

ferretgold_status ferretgold_client_counts(const ferretgold_cache *cache, uint32_t number,
                                           ferretgold_counts *counts) {
    if (cache == NULL || counts == NULL) {
        return FERRETGOLD_NULL;
    }
    if (number >= cache->config.clients) {
        return FERRETGOLD_OUT_OF_RANGE;
    }
    memset(counts, 0, sizeof *counts);
    counts_added(&cache->client[number].counts, counts);
    return FERRETGOLD_OK;
}

ferretgold_status ferretgold_close(ferretgold_cache *cache, ferretgold_totals *totals) {
    ferretgold_totals left = {0, 0, 0, 0};
    if (cache == NULL) {
        return FERRETGOLD_NULL;
    }
    if (!cache_is_idle(cache)) {
        return FERRETGOLD_CLIENTS_OUT;
    }
    return end(cache, totals != NULL ? totals : &left, NULL);
}

ferretgold_status cache_end(ferretgold_cache *cache, ferretgold_object *left) {
    return end(cache, NULL, left);
}

ferretgold_status ferretgold_client_open(ferretgold_cache *cache, ferretgold_client **client) {
    if (cache == NULL || client == NULL) {
        return FERRETGOLD_NULL;
    }
    const uint32_t number = take(cache);
    if (number == cache->config.clients) {
        return FERRETGOLD_NO_CLIENT;
    }
    *client = &cache->client[number];
    __atomic_store_n(&(*client)->out, &(*client)->session, __ATOMIC_SEQ_CST);
    return FERRETGOLD_OK;
}

/* Gives back each handle that a client holds. */
static void release_all(ferretgold_client *client) {
    ferretgold_handle handle = {0, 0, 0, 0};
    bool freed = false;
    for (size_t index = 0; ferretgold_raw_held(&client->session) != 0; index++) {
        if (ferretgold_raw_handle_at(&client->session, index, &handle) == FERRETGOLD_OK) {
            (void)ferretgold_raw_release(&client->session, &handle, false, false, &freed);
        }
    }
}

/* Gives a client back, once it holds no handle. */
static ferretgold_status give_back(ferretgold_cache *cache, ferretgold_client *client,
                                   bool releasing, const char *call) {
    if (cache == NULL || client == NULL) {
        return FERRETGOLD_NULL;
    }
    if (client->cache != cache) {
        return FERRETGOLD_OTHER_CACHE;
    }
    if (!ferretgold_enter(client, call)) {
        return FERRETGOLD_NO_CLIENT;
    }
    if (releasing) {
        release_all(client);
    }
    if (ferretgold_raw_held(&client->session) != 0) {
        return ferretgold_leave(client, FERRETGOLD_HANDLES_OUT);
    }
    __atomic_store_n(&client->out, NULL, __ATOMIC_SEQ_CST);
    ferretgold_quit(client);
    put_back(client);
    return FERRETGOLD_OK;
}

ferretgold_status ferretgold_client_close(ferretgold_cache *cache, ferretgold_client *client) {
    return give_back(cache, client, false, __func__);
}

ferretgold_status ferretgold_client_close_releasing(ferretgold_cache *cache,
                                                    ferretgold_client *client) {
    return give_back(cache, client, true, __func__);
}

/* ---- Reading a part by its key --------------------------------------------------------------- */

ferretgold_status ferretgold_get_part(ferretgold_client *client, const ferretgold_key *key,
                                      size_t offset, void *buffer, size_t capacity, bool useful,
                                      ferretgold_part *part) {
    ferretgold_handle held;
    ferretgold_part ignored;
    void *bytes = buffer != NULL ? buffer : &ignored;
    bool freed = false;
    if (client == NULL || key == NULL || (buffer == NULL && capacity != 0)) {
        return FERRETGOLD_NULL;
    }
    if (!ferretgold_enter(client, __func__)) {
        return FERRETGOLD_NO_CLIENT;
    }
    const uint32_t status = ferretgold_raw_lookup(&client->session, key, &held);
    if (status == FERRETGOLD_OK) {
        (void)ferretgold_raw_read_part(&client->session, &held, offset, bytes, capacity,
                                       part != NULL ? part : &ignored);
        (void)ferretgold_raw_release(&client->session, &held, useful, false, &freed);
    }
    return ferretgold_leave(client, ferretgold_looked(client, status));
}

/* ---- Inserting and erasing ------------------------------------------------------------------- */

/* The proved library asks for pointers that aren't null, also to no bytes: the key's does then. */
static const uint8_t *bytes_of(const void *value, const ferretgold_key *key) {
    return value != NULL ? value : (const void *)key;
}

/* What the client's calls did on the shard of a key. */
static ferretgold_stats stats_at(ferretgold_client *client, const ferretgold_key *key) {
    ferretgold_stats stats;
    ferretgold_raw_stats_at(&client->session, key, &stats);
    return stats;
}

/* Ends an insertion of this key: counts what came of it, and tells that. */
static ferretgold_status inserted_so(ferretgold_client *client, const ferretgold_key *key,
                                     const ferretgold_stats *before, uint32_t status,
                                     uint32_t answer, ferretgold_inserted *inserted) {
    const ferretgold_stats after = stats_at(client, key);
    if (count_insertion(&client->counts, status, answer, before, &after)
        && answer == FERRETGOLD_DROPPED) {
        answer = FERRETGOLD_THERE;
    }
    if (inserted != NULL && status == FERRETGOLD_OK) {
        *inserted = (ferretgold_inserted)answer;
    }
    return ferretgold_leave(client, status);
}

ferretgold_status ferretgold_insert(ferretgold_client *client, const ferretgold_key *key,
                                    const void *value, size_t length, uint32_t charge,
                                    ferretgold_priority priority, ferretgold_inserted *inserted) {
    uint32_t answer = 0;
    if (client == NULL || key == NULL || (value == NULL && length != 0)) {
        return FERRETGOLD_NULL;
    }
    if (!ferretgold_enter(client, __func__)) {
        return FERRETGOLD_NO_CLIENT;
    }
    const ferretgold_stats before = stats_at(client, key);
    const uint32_t status =
        ferretgold_raw_insert(&client->session, key, bytes_of(value, key), length, charge,
                              (uint32_t)priority, &answer);
    return inserted_so(client, key, &before, status, answer, inserted);
}

ferretgold_status ferretgold_insert_pinned(ferretgold_client *client, const ferretgold_key *key,
                                           const void *value, size_t length, uint32_t charge,
                                           ferretgold_priority priority,
                                           ferretgold_inserted *inserted,
                                           ferretgold_handle *handle) {
    uint32_t answer = 0;
    if (client == NULL || key == NULL || handle == NULL || (value == NULL && length != 0)) {
        return FERRETGOLD_NULL;
    }
    if (!ferretgold_enter(client, __func__)) {
        return FERRETGOLD_NO_CLIENT;
    }
    const ferretgold_stats before = stats_at(client, key);
    const uint32_t status =
        ferretgold_raw_insert_pinned(&client->session, key, bytes_of(value, key), length, charge,
                                     (uint32_t)priority, &answer, handle);
    return inserted_so(client, key, &before, status, answer, inserted);
}

ferretgold_status ferretgold_erase(ferretgold_client *client, const ferretgold_key *key,
                                   uint32_t *hidden) {
    if (client == NULL || key == NULL) {
        return FERRETGOLD_NULL;
    }
    if (!ferretgold_enter(client, __func__)) {
        return FERRETGOLD_NO_CLIENT;
    }
    uint32_t ignored = 0;
    return ferretgold_leave(client, ferretgold_raw_erase(&client->session, key,
                                                         hidden != NULL ? hidden : &ignored));
}

/* ---- Walks ----------------------------------------------------------------------------------- */

ferretgold_status ferretgold_pin_at(ferretgold_client *client, uint32_t shard, uint32_t slot,
                                    ferretgold_held_entry *held) {
    if (client == NULL || held == NULL) {
        return FERRETGOLD_NULL;
    }
    if (!ferretgold_enter(client, __func__)) {
        return FERRETGOLD_NO_CLIENT;
    }
    return ferretgold_leave(client, ferretgold_raw_pin_at(&client->session, shard, slot, held));
}

bool client_config(ferretgold_client *client, ferretgold_config *config) {
    const bool is_out = ferretgold_enter(client, "ferretgold_walk") != NULL;
    if (is_out) {
        *config = client->cache->config;
        ferretgold_quit(client);
    }
    return is_out;
}

/* ---- Totals and words ------------------------------------------------------------------------ */

ferretgold_status ferretgold_usage(ferretgold_client *client, uint64_t *usage) {
    if (client == NULL || usage == NULL) {
        return FERRETGOLD_NULL;
    }
    if (!ferretgold_enter(client, __func__)) {
        return FERRETGOLD_NO_CLIENT;
    }
    *usage = ferretgold_raw_usage(&client->session);
    return ferretgold_leave(client, FERRETGOLD_OK);
}

ferretgold_status ferretgold_pinned_usage(ferretgold_client *client, uint64_t *usage) {
    if (client == NULL || usage == NULL) {
        return FERRETGOLD_NULL;
    }
    if (!ferretgold_enter(client, __func__)) {
        return FERRETGOLD_NO_CLIENT;
    }
    *usage = ferretgold_raw_pinned_usage(&client->session);
    return ferretgold_leave(client, FERRETGOLD_OK);
}

ferretgold_status ferretgold_occupancy(ferretgold_client *client, uint64_t *occupancy) {
    if (client == NULL || occupancy == NULL) {
        return FERRETGOLD_NULL;
    }
    if (!ferretgold_enter(client, __func__)) {
        return FERRETGOLD_NO_CLIENT;
    }
    *occupancy = ferretgold_raw_occupancy(&client->session);
    return ferretgold_leave(client, FERRETGOLD_OK);
}

ferretgold_status ferretgold_word(ferretgold_client *client, uint32_t shard, uint32_t slot,
                                  uint64_t *word) {
    if (client == NULL || word == NULL) {
        return FERRETGOLD_NULL;
    }
    if (!ferretgold_enter(client, __func__)) {
        return FERRETGOLD_NO_CLIENT;
    }
    return ferretgold_leave(client, ferretgold_raw_word(&client->session, shard, slot, word));
}

ferretgold_status ferretgold_displacement(ferretgold_client *client, uint32_t shard, uint32_t slot,
                                          uint64_t *displacement) {
    if (client == NULL || displacement == NULL) {
        return FERRETGOLD_NULL;
    }
    if (!ferretgold_enter(client, __func__)) {
        return FERRETGOLD_NO_CLIENT;
    }
    return ferretgold_leave(
        client, ferretgold_raw_displacement(&client->session, shard, slot, displacement));
}

/* ---- Of a client ----------------------------------------------------------------------------- */

uint32_t ferretgold_client_number(ferretgold_client *client) {
    uint32_t number = 0;
    if (client != NULL && ferretgold_enter(client, __func__)) {
        number = ferretgold_raw_number(&client->session);
        ferretgold_quit(client);
    }
    return number;
}

uint32_t ferretgold_held(ferretgold_client *client) {
    uint32_t held = 0;
    if (client != NULL && ferretgold_enter(client, __func__)) {
        held = ferretgold_raw_held(&client->session);
        ferretgold_quit(client);
    }
    return held;
}

uint64_t ferretgold_serials_left(ferretgold_client *client) {
    uint64_t left = 0;
    if (client != NULL && ferretgold_enter(client, __func__)) {
        left = ferretgold_raw_serials_left(&client->session);
        ferretgold_quit(client);
    }
    return left;
}

ferretgold_status ferretgold_statistics(ferretgold_client *client, ferretgold_stats *stats) {
    if (client == NULL || stats == NULL) {
        return FERRETGOLD_NULL;
    }
    if (!ferretgold_enter(client, __func__)) {
        return FERRETGOLD_NO_CLIENT;
    }
    ferretgold_raw_stats(&client->session, stats);
    count_lost(&client->counts, stats->lost);
    return ferretgold_leave(client, FERRETGOLD_OK);
}
