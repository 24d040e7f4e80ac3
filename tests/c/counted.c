/* What each call counts as, and that clients at work are counted. */
#include "expect.h"

#include <stdint.h>
#include <string.h>

static const ferretgold_key KEY = {1, 2};
static const ferretgold_key OTHER = {3, 4};
static const ferretgold_config SMALL = {.slots = 8, .room = 2, .clients = 2, .handles = 5,
                                        .shards = 1, .capacity = 600,
                                        .serials = FERRETGOLD_MOST_SERIALS, .seed = 1};

/* Whether a cache counts so, or its client of this number. */
static void counts(const ferretgold_cache *cache, ferretgold_counts wanted) {
    ferretgold_counts is;
    memset(&is, 5, sizeof is);
    EXPECT(ferretgold_cache_counts(cache, &is), 0);
    EXPECT(memcmp(&is, &wanted, sizeof is), 0);
}

static void counts_of(const ferretgold_cache *cache, ferretgold_client *client,
                      ferretgold_counts wanted) {
    ferretgold_counts is;
    memset(&is, 5, sizeof is);
    EXPECT(ferretgold_client_counts(cache, ferretgold_client_number(client), &is), 0);
    EXPECT(memcmp(&is, &wanted, sizeof is), 0);
}

/* Who may not ask, and for what. */
static void counts_refused(const ferretgold_cache *cache) {
    ferretgold_counts is = {.hits = 7};
    EXPECT(ferretgold_cache_counts(NULL, &is), 16);
    EXPECT(ferretgold_cache_counts(cache, NULL), 16);
    EXPECT(ferretgold_client_counts(NULL, 2, &is), 16);
    EXPECT(ferretgold_client_counts(cache, 2, NULL), 16);
    EXPECT(ferretgold_client_counts(cache, 2, &is), 22);
    EXPECT(is.hits, 7);
}

/* What each call counts as, at once. */
static void each_call(void) {
    ferretgold_config config = SMALL;
    ferretgold_cache *cache = NULL;
    ferretgold_client *it[2] = {NULL, NULL};
    ferretgold_handle handle[5], none;
    ferretgold_inserted came[3] = {FERRETGOLD_STANDALONE, FERRETGOLD_PLACED, FERRETGOLD_PLACED};
    char byte = 0;
    config.strict = true;
    EXPECT(ferretgold_open(&config, &cache), 0);
    counts_refused(cache);
    counts(cache, (ferretgold_counts){0});
    for (int k = 0; k < 2; k++) {
        EXPECT(ferretgold_client_open(cache, &it[k]), 0);
    }
    EXPECT(ferretgold_lookup(it[0], &KEY, &none), 1);
    for (int k = 0; k < 3; k++) {
        EXPECT(ferretgold_get(it[0], &KEY, NULL, 0, true, NULL), 1);
    }
    EXPECT(ferretgold_get_part(it[0], &KEY, 0, NULL, 0, true, NULL), 1);
    EXPECT(ferretgold_insert(it[0], &KEY, "a", 1, 1, FERRETGOLD_LOW, &came[0]), 0);
    EXPECT(ferretgold_insert(it[0], &KEY, "b", 1, 1, FERRETGOLD_LOW, &came[1]), 0);
    for (int k = 0; k < 4; k++) {
        EXPECT(ferretgold_insert_pinned(it[0], &OTHER, "", 0, 1, FERRETGOLD_LOW, &came[2],
                                        &handle[k]),
               0);
    }
    EXPECT(came[0] == FERRETGOLD_PLACED && came[1] == FERRETGOLD_THERE
               && came[2] == FERRETGOLD_STANDALONE,
           true);
    EXPECT(ferretgold_get(it[0], &KEY, &byte, 1, true, NULL), 0);
    EXPECT(ferretgold_get(it[0], &KEY, NULL, 0, true, NULL), 20);
    EXPECT(ferretgold_get_part(it[0], &KEY, 0, NULL, 0, true, NULL), 0);
    EXPECT(ferretgold_lookup(it[0], &KEY, &handle[4]), 0);
    EXPECT(ferretgold_lookup(it[0], &KEY, &none), 23);
    EXPECT(ferretgold_get_part(it[0], &KEY, 0, NULL, 0, true, NULL), 23);
    EXPECT(ferretgold_insert_pinned(it[0], &KEY, "", 0, 1, FERRETGOLD_LOW, NULL, &none), 23);
    for (int k = 0; k < 5; k++) {
        EXPECT(ferretgold_insert(it[0], &KEY, "", 0, 601, FERRETGOLD_LOW, NULL), 25);
    }
    EXPECT(ferretgold_insert(it[0], &KEY, "", 0, 0, FERRETGOLD_LOW, NULL), 18);
    EXPECT(ferretgold_insert(it[1], &KEY, "", 0, 601, FERRETGOLD_LOW, NULL), 25);
    for (int k = 0; k < 3; k++) {
        EXPECT(ferretgold_get(it[1], &KEY, &byte, 1, true, NULL), 0);
    }
    const ferretgold_counts first = {.hits = 3, .misses = 8, .placed = 2, .there = 4, .refused = 6,
                                     .by_turns = {12}};
    counts_of(cache, it[0], first);
    counts_of(cache, it[1], (ferretgold_counts){.hits = 3, .refused = 1, .by_turns = {1}});
    const ferretgold_counts all = {.hits = 6, .misses = 8, .placed = 2, .there = 4, .refused = 7,
                                   .by_turns = {13}};
    counts(cache, all);
    EXPECT(ferretgold_client_close_releasing(cache, it[0]), 0);
    EXPECT(ferretgold_client_close(cache, it[1]), 0);
    counts(cache, all);
    EXPECT(ferretgold_close(cache, NULL), 0);
}

/* A client's counts have what its statistics say; that is told of them. */
static ferretgold_stats counted_as_told(const ferretgold_cache *cache, ferretgold_client *client) {
    ferretgold_counts is;
    ferretgold_stats stats;
    EXPECT(ferretgold_client_counts(cache, ferretgold_client_number(client), &is), 0);
    EXPECT(ferretgold_statistics(client, &stats), 0);
    EXPECT(is.evicted, stats.evicted);
    EXPECT(is.evicted_hit, stats.evicted_hit);
    EXPECT(is.freed, stats.freed);
    EXPECT(is.turns, stats.turns);
    EXPECT(is.lost, stats.lost);
    EXPECT(is.there, stats.boosts);
    return stats;
}

/* The class of so many turns. */
static uint32_t class_of(uint64_t turns) {
    static const uint64_t most[] = {0, 1, 2, 4, 8, 16};
    uint32_t class = 0;
    while (turns > most[class]) {
        class++;
    }
    return class;
}

/* What finds no place counts apart from what met its key, and turns of the hand by their number. */
static void without_place(void) {
    ferretgold_config config = SMALL;
    ferretgold_cache *cache = NULL;
    ferretgold_client *it[2] = {NULL, NULL};
    ferretgold_inserted came[2] = {FERRETGOLD_PLACED, FERRETGOLD_PLACED};
    ferretgold_handle handle;
    ferretgold_counts wanted = {.placed = 3, .dropped = 1, .standalone = 1, .by_turns = {3}};
    config.handles = 4;
    EXPECT(ferretgold_open(&config, &cache), 0);
    for (int k = 0; k < 2; k++) {
        EXPECT(ferretgold_client_open(cache, &it[k]), 0);
    }
    for (uint64_t k = 0; k < 6; k++) {
        const ferretgold_key key = {k, 1};
        EXPECT(ferretgold_insert_pinned(it[k / 3], &key, "", 0, 1, FERRETGOLD_LOW, NULL, &handle), 0);
    }
    EXPECT(counted_as_told(cache, it[0]).turns, 0);
    EXPECT(ferretgold_insert(it[0], &OTHER, "", 0, 1, FERRETGOLD_LOW, &came[0]), 0);
    const uint64_t turns = counted_as_told(cache, it[0]).turns;
    EXPECT(ferretgold_insert_pinned(it[0], &OTHER, "", 0, 1, FERRETGOLD_LOW, &came[1], &handle), 0);
    EXPECT(came[0] == FERRETGOLD_DROPPED && came[1] == FERRETGOLD_STANDALONE, true);
    wanted.by_turns[class_of(turns)]++;
    wanted.by_turns[class_of(counted_as_told(cache, it[0]).turns - turns)]++;
    wanted.turns = counted_as_told(cache, it[0]).turns;
    counts_of(cache, it[0], wanted);
    for (int k = 0; k < 2; k++) {
        EXPECT(ferretgold_client_close_releasing(cache, it[k]), 0);
    }
    EXPECT(ferretgold_close(cache, NULL), 0);
}

/* An insertion among entries of high priority, all of which it visits three times and four a fourth
 * time: so many turns are in this class. */
static void long_search(uint32_t slots, uint32_t class) {
    ferretgold_config config = SMALL;
    ferretgold_cache *cache = NULL;
    ferretgold_client *it = NULL;
    ferretgold_counts is;
    const uint32_t entries = slots / 2;
    config.slots = slots, config.strict = true, config.capacity = 10 * entries;
    EXPECT(ferretgold_open(&config, &cache), 0);
    EXPECT(ferretgold_client_open(cache, &it), 0);
    for (uint64_t k = 0; k < entries; k++) {
        const ferretgold_key key = {k, 1};
        EXPECT(ferretgold_insert(it, &key, "", 0, 10, FERRETGOLD_HIGH, NULL), 0);
    }
    EXPECT(ferretgold_insert(it, &KEY, "", 0, 10 * entries, FERRETGOLD_LOW, NULL), 26);
    EXPECT(counted_as_told(cache, it).turns, 3 * slots / 4 + 1);
    EXPECT(ferretgold_cache_counts(cache, &is), 0);
    EXPECT(is.by_turns[class], 1);
    EXPECT(is.by_turns[0], entries);
    EXPECT(is.refused, 1);
    EXPECT(ferretgold_client_close(cache, it), 0);
    EXPECT(ferretgold_close(cache, NULL), 0);
}

/* Short ones, each by what the statistics say. */
static void short_searches(void) {
    ferretgold_config config = SMALL;
    ferretgold_cache *cache = NULL;
    ferretgold_client *it = NULL;
    ferretgold_counts is;
    uint64_t wanted[5] = {0}, turns = 0;
    config.capacity = 30, config.marks = true;
    EXPECT(ferretgold_open(&config, &cache), 0);
    EXPECT(ferretgold_client_open(cache, &it), 0);
    for (uint64_t k = 0; k < 500; k++) {
        const ferretgold_key key = {k * k % 19, 2};
        EXPECT(ferretgold_insert(it, &key, "", 0, (uint32_t)(1 + k % 13), k % 3, NULL), 0);
        (void)ferretgold_get(it, k % 2 == 0 ? &key : &KEY, NULL, 0, true, NULL);
        const uint64_t now = counted_as_told(cache, it).turns;
        wanted[class_of(now - turns)]++;
        turns = now;
    }
    EXPECT(ferretgold_cache_counts(cache, &is), 0);
    for (int k = 0; k < 5; k++) {
        EXPECT(is.by_turns[k], wanted[k]);
    }
    EXPECT(wanted[0] > 0 && wanted[0] < 500, true);
    EXPECT(is.evicted > is.evicted_hit && is.evicted_hit > 0 && is.freed > is.evicted, true);
    EXPECT(ferretgold_client_close(cache, it), 0);
    EXPECT(ferretgold_close(cache, NULL), 0);
}

void counted(void) {
    where = "counted";
    each_call();
    without_place();
    short_searches();
    long_search(8, 4);
    long_search(64, 7);
    long_search(1024, 11);
    long_search(8192, 14);
    long_search(32768, 15);
}
