/* What is left of a cache that was closed: its entries with their values, its words; what the calls of
 * ferretgold_closed.h refuse. */
#include "ferretgold_closed.h"
#include "expect.h"
#include "heap.h"

#include <stdint.h>
#include <string.h>

enum { SHARDS = 2, SLOTS = 8, ROOM = 16 };

static const ferretgold_config SMALL = {.slots = SLOTS, .room = 2, .clients = 2, .handles = 8,
                                        .shards = SHARDS, .marks = true, .capacity = 600,
                                        .serials = FERRETGOLD_MOST_SERIALS, .seed = 1};

/* Entries, how often each is used before the cache is closed, and what is left of it then. */
static const struct row {
    ferretgold_key key;
    const char *value;
    uint32_t charge;
    ferretgold_priority priority;
    uint32_t used, uses;
} rows[] = {{{1, 2}, "", 1, FERRETGOLD_HIGH, 0, 3},
            {{1, 3}, "a", 2, FERRETGOLD_LOW, 0, 2},
            {{UINT64_MAX, 0}, "seven b", 4, FERRETGOLD_BOTTOM, 0, 1},
            {{0, 0}, "eight by", 1, FERRETGOLD_BOTTOM, 2, 3},
            {{5, UINT64_MAX}, "sixteen bytes it", UINT32_MAX, FERRETGOLD_HIGH, 4, 7}};
enum { ROWS = sizeof rows / sizeof *rows };

static void insert(ferretgold_client *it, const struct row *row) {
    ferretgold_inserted inserted = FERRETGOLD_DROPPED;
    EXPECT(ferretgold_insert(it, &row->key, row->value, strlen(row->value), row->charge,
                             row->priority, &inserted), 0);
    EXPECT(inserted, FERRETGOLD_PLACED);
    for (uint32_t k = 0; k < row->used; k++) {
        ferretgold_handle handle;
        EXPECT(ferretgold_lookup(it, &row->key, &handle), 0);
        EXPECT(ferretgold_release(it, handle, true, false, NULL), 0);
    }
}

static const struct row *row_of(ferretgold_key key) {
    for (const struct row *row = rows; row < rows + ROWS; row++) {
        if (row->key.w0 == key.w0 && row->key.w1 == key.w1) {
            return row;
        }
    }
    return NULL;
}

/* A slot with an entry: it says what was inserted, and gives the value to each buffer that has room. */
static void entry_at(ferretgold_closed *it, uint32_t shard, uint32_t slot, ferretgold_entry entry) {
    const struct row *row = row_of(entry.key);
    char bytes[ROOM + 1];
    size_t length = 77;
    EXPECT(row != NULL, true);
    EXPECT(entry.length, strlen(row->value));
    EXPECT(entry.charge, row->charge);
    EXPECT(entry.uses, row->uses);
    EXPECT(entry.visible, true);
    EXPECT(entry.hit, row->used > 0);
    memset(bytes, 'x', sizeof bytes);
    if (entry.length > 0) {
        EXPECT(ferretgold_closed_value(it, shard, slot, bytes, entry.length - 1, &length), 20);
        EXPECT(length, entry.length);
        EXPECT(bytes[0], 'x');
        EXPECT(ferretgold_closed_value(it, shard, slot, NULL, 0, NULL), 20);
    }
    EXPECT(ferretgold_closed_value(it, shard, slot, bytes, entry.length, NULL), 0);
    EXPECT(memcmp(bytes, row->value, entry.length), 0);
    EXPECT(bytes[entry.length], 'x');
    memset(bytes, 'x', sizeof bytes);
    length = 77;
    EXPECT(ferretgold_closed_value(it, shard, slot, bytes, sizeof bytes, &length), 0);
    EXPECT(length, entry.length);
    EXPECT(memcmp(bytes, row->value, entry.length), 0);
    EXPECT(bytes[entry.length], 'x');
}

/* One without. */
static void nothing_at(ferretgold_closed *it, uint32_t shard, uint32_t slot) {
    char byte = 'x';
    size_t length = 77;
    EXPECT(ferretgold_closed_value(it, shard, slot, &byte, 1, &length), 1);
    EXPECT(ferretgold_closed_value(it, shard, slot, NULL, 0, NULL), 1);
    EXPECT(byte == 'x' && length == 77, true);
}

/* All slots of a closed cache, whose words are as they were read before. */
static void slots(ferretgold_closed *it, uint64_t (*before)[SLOTS][2]) {
    uint32_t count = 0;
    for (uint32_t shard = 0; shard < SHARDS; shard++) {
        for (uint32_t slot = 0; slot < SLOTS; slot++) {
            ferretgold_entry entry = {{5, 5}, 5, 5, 5, false, false};
            uint64_t word = 77, displacement = 77;
            const ferretgold_status status = ferretgold_closed_entry(it, shard, slot, &entry);
            EXPECT(ferretgold_closed_word(it, shard, slot, &word), 0);
            EXPECT(ferretgold_closed_displacement(it, shard, slot, &displacement), 0);
            EXPECT(word, before[shard][slot][0]);
            EXPECT(displacement, before[shard][slot][1]);
            EXPECT(status, word == 0);
            if (status == 0) {
                count++;
                entry_at(it, shard, slot, entry);
            } else {
                EXPECT(entry.key.w0 == 5 && entry.length == 5 && entry.uses == 5, true);
                nothing_at(it, shard, slot);
            }
        }
    }
    EXPECT(count, ROWS);
}

/* What each call refuses, and that it leaves its outputs then. */
static void refusals(ferretgold_closed *it) {
    static const struct { uint32_t shard, slot; } outside[] = {
        {0, SLOTS}, {SHARDS, 0}, {SHARDS - 1, UINT32_MAX}, {UINT32_MAX, SLOTS - 1}};
    ferretgold_config config = {.slots = 5};
    ferretgold_totals totals = {5, 5, 5, 5};
    ferretgold_entry entry = {{5, 5}, 5, 5, 5, false, false};
    uint64_t wide = 5;
    size_t length = 5;
    char byte = 5;
    for (size_t k = 0; k < sizeof outside / sizeof *outside; k++) {
        const uint32_t shard = outside[k].shard, slot = outside[k].slot;
        EXPECT(ferretgold_closed_entry(it, shard, slot, &entry), 22);
        EXPECT(ferretgold_closed_value(it, shard, slot, &byte, 1, &length), 22);
        EXPECT(ferretgold_closed_word(it, shard, slot, &wide), 22);
        EXPECT(ferretgold_closed_displacement(it, shard, slot, &wide), 22);
    }
    EXPECT(ferretgold_closed_hand(it, SHARDS, &wide), 22);
    EXPECT(ferretgold_closed_hand(it, UINT32_MAX, &wide), 22);
    EXPECT(ferretgold_closed_config(NULL, &config), 16);
    EXPECT(ferretgold_closed_config(it, NULL), 16);
    EXPECT(ferretgold_closed_totals(NULL, &totals), 16);
    EXPECT(ferretgold_closed_totals(it, NULL), 16);
    EXPECT(ferretgold_closed_entry(NULL, 0, 0, &entry), 16);
    EXPECT(ferretgold_closed_entry(it, SHARDS, SLOTS, NULL), 16);
    EXPECT(ferretgold_closed_value(NULL, 0, 0, &byte, 1, &length), 16);
    EXPECT(ferretgold_closed_value(it, SHARDS, SLOTS, NULL, 1, &length), 16);
    EXPECT(ferretgold_closed_word(NULL, 0, 0, &wide), 16);
    EXPECT(ferretgold_closed_word(it, SHARDS, SLOTS, NULL), 16);
    EXPECT(ferretgold_closed_displacement(NULL, 0, 0, &wide), 16);
    EXPECT(ferretgold_closed_displacement(it, SHARDS, SLOTS, NULL), 16);
    EXPECT(ferretgold_closed_hand(NULL, 0, &wide), 16);
    EXPECT(ferretgold_closed_hand(it, SHARDS, NULL), 16);
    EXPECT(config.slots == 5 && totals.usage == 5 && entry.uses == 5 && wide == 5, true);
    EXPECT(length == 5 && byte == 5, true);
    ferretgold_closed_free(NULL);
}

/* What a closed cache was opened with, and what is left of it in sum. */
static void sums(ferretgold_closed *it, const ferretgold_config *was, uint64_t usage,
                 uint64_t count) {
    ferretgold_config config;
    ferretgold_totals left = {5, 5, 5, 5};
    memset(&config, 0, sizeof config);
    EXPECT(ferretgold_closed_config(it, &config), 0);
    EXPECT(memcmp(&config, was, sizeof config), 0);
    EXPECT(ferretgold_closed_totals(it, &left), 0);
    EXPECT(left.usage == usage && left.slot_charges == usage, true);
    EXPECT(left.occupied == count && left.slot_count == count, true);
}

/* Closing is refused while a client is out, and then for each request of memory: the cache works on. */
static void refused(ferretgold_cache *cache, ferretgold_client *out) {
    ferretgold_closed *closed = NULL;
    EXPECT(ferretgold_close_keeping(NULL, &closed), 16);
    EXPECT(ferretgold_close_keeping(cache, NULL), 16);
    heap_left = 0;
    EXPECT(ferretgold_close_keeping(cache, &closed), 39);
    EXPECT(ferretgold_client_close(cache, out), 0);
    const size_t blocks = heap_blocks;
    for (size_t met = 0; met < 2; met++) {
        heap_left = met;
        EXPECT(ferretgold_close_keeping(cache, &closed), 28);
        EXPECT(heap_blocks, blocks);
    }
    heap_left = SIZE_MAX;
    EXPECT(closed == NULL, true);
}

/* Entries of each length, priority and use, beside empty slots. */
static void entries(void) {
    ferretgold_cache *cache = NULL;
    ferretgold_client *client = NULL;
    ferretgold_closed *closed = NULL;
    uint64_t before[SHARDS][SLOTS][2], usage = 0, hand = 5;
    const size_t was = heap_bytes;
    EXPECT(ferretgold_open(&SMALL, &cache), 0);
    EXPECT(ferretgold_client_open(cache, &client), 0);
    for (const struct row *row = rows; row < rows + ROWS; row++) {
        insert(client, row);
        usage += row->charge;
    }
    for (uint32_t k = 0; k < SHARDS * SLOTS; k++) {
        uint64_t *slot = before[k / SLOTS][k % SLOTS];
        EXPECT(ferretgold_word(client, k / SLOTS, k % SLOTS, &slot[0]), 0);
        EXPECT(ferretgold_displacement(client, k / SLOTS, k % SLOTS, &slot[1]), 0);
    }
    refused(cache, client);
    EXPECT(ferretgold_client_open(cache, &client), 0);
    EXPECT(ferretgold_client_close(cache, client), 0);
    EXPECT(ferretgold_close_keeping(cache, &closed), 0);
    EXPECT(heap_bytes - was, 5776 + SHARDS * (160 + SLOTS * 8 * (7 + SMALL.room)));
    slots(closed, before);
    sums(closed, &SMALL, usage, ROWS);
    refusals(closed);
    for (uint32_t shard = 0; shard < SHARDS; shard++) {
        EXPECT(ferretgold_closed_hand(closed, shard, &hand), 0);
        EXPECT(hand, 0);
    }
    ferretgold_closed_free(closed);
}

/* The hand of each shard is where the turns of all clients left it. */
static void hands(void) {
    ferretgold_cache *cache = NULL;
    ferretgold_client *client = NULL;
    ferretgold_closed *closed = NULL;
    ferretgold_stats stats;
    uint64_t hand = 0, turned = 0;
    EXPECT(ferretgold_open(&SMALL, &cache), 0);
    EXPECT(ferretgold_client_open(cache, &client), 0);
    for (uint64_t k = 0; k < 200; k++) {
        const ferretgold_key key = {k, 7};
        EXPECT(ferretgold_insert(client, &key, "", 0, 1, FERRETGOLD_LOW, NULL), 0);
    }
    EXPECT(ferretgold_statistics(client, &stats), 0);
    EXPECT(ferretgold_client_close(cache, client), 0);
    EXPECT(ferretgold_close_keeping(cache, &closed), 0);
    for (uint32_t shard = 0; shard < SHARDS; shard++) {
        EXPECT(ferretgold_closed_hand(closed, shard, &hand), 0);
        EXPECT(hand > 0, true);
        turned += hand;
    }
    EXPECT(turned, 4 * stats.turns);
    ferretgold_closed_free(closed);
}

/* Two handles on an entry of the lowest priority are given back, as uses or not, or with their client: which
 * uses the entry has then. Nothing is counted meanwhile. */
static void given_back(bool releases, bool useful, uint32_t uses) {
    static const ferretgold_key key = {1, 2};
    ferretgold_cache *cache = NULL;
    ferretgold_client *client = NULL;
    ferretgold_closed *closed = NULL;
    ferretgold_handle handles[2];
    ferretgold_counts before, after;
    ferretgold_entry entry = {{5, 5}, 5, 5, 77, false, false};
    EXPECT(ferretgold_open(&SMALL, &cache), 0);
    EXPECT(ferretgold_client_open(cache, &client), 0);
    EXPECT(ferretgold_insert(client, &key, "", 0, 1, FERRETGOLD_BOTTOM, NULL), 0);
    for (int k = 0; k < 2; k++) {
        EXPECT(ferretgold_lookup(client, &key, &handles[k]), 0);
    }
    EXPECT(ferretgold_cache_counts(cache, &before), 0);
    for (int k = 0; releases && k < 2; k++) {
        EXPECT(ferretgold_release(client, handles[k], useful, false, NULL), 0);
    }
    EXPECT(ferretgold_client_close_releasing(cache, client), 0);
    EXPECT(ferretgold_cache_counts(cache, &after), 0);
    EXPECT(memcmp(&before, &after, sizeof before), 0);
    EXPECT(ferretgold_close_keeping(cache, &closed), 0);
    for (uint32_t k = 0; k < SHARDS * SLOTS; k++) {
        (void)ferretgold_closed_entry(closed, k / SLOTS, k % SLOTS, &entry);
    }
    EXPECT(entry.uses, uses);
    ferretgold_closed_free(closed);
}

void closed_caches(void) {
    where = "closed";
    entries();
    hands();
    given_back(true, true, 3);
    given_back(true, false, 1);
    given_back(false, false, 1);
}
