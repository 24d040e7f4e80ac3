/* The seed of a cache of objects: what it is asked for, which it has then, and where keys lie by
 * that; what a system gives that has no number to draw. */
#include "object_test.h"

#include <string.h>

enum { KEYS = 6, SHARDS = 2 };

static void ignore(void *context, const ferretgold_key *key, void *object, uint16_t kind) {
    (void)context, (void)key, (void)object, (void)kind;
}

static ferretgold_object_config asking(uint64_t seed) {
    ferretgold_object_config it = small_cache();
    it.shards = SHARDS;
    it.seed = seed;
    return it;
}

/* Opens a cache, and says which seed it has; where each key lies goes to `places`. */
static uint64_t opened(uint64_t asked, uint32_t places[KEYS]) {
    ferretgold_object_config config = asking(asked);
    ferretgold_object_cache *cache = NULL;
    EXPECT(ferretgold_object_open(&config, ignore, NULL, &cache), FERRETGOLD_OK);
    for (uint64_t number = 0; number < KEYS; number++) {
        const ferretgold_key key = {number, 5};
        EXPECT(ferretgold_object_insert(cache, &key, NULL, 1, 1, FERRETGOLD_LOW, NULL),
               FERRETGOLD_OK);
    }
    for (uint32_t place = 0; place < SHARDS * config.slots; place++) {
        const ferretgold_object_handle *handle = NULL;
        if (ferretgold_object_pin_at(cache, place / config.slots, place % config.slots, &handle)
            == FERRETGOLD_OK) {
            places[handle->key.w0] = place;
            EXPECT(ferretgold_object_release(cache, handle, false, false, NULL), FERRETGOLD_OK);
        }
    }
    EXPECT(ferretgold_object_config_of(cache, &config), FERRETGOLD_OK);
    EXPECT(ferretgold_object_close(cache), FERRETGOLD_OK);
    return config.seed;
}

/* Which seed a cache has, by what it is asked for and what the system gives; how often it is asked. */
static void given(void) {
    static const struct { uint64_t asked, drawn, is; } rows[] = {
        {0, 99, 99}, {0, 0, 1}, {0, UINT64_MAX, UINT64_MAX - 1}, {7, 99, 7},
        {FERRETGOLD_UNSEEDED, 99, FERRETGOLD_UNSEEDED}};
    uint32_t places[KEYS] = {0};
    for (size_t k = 0; k < sizeof rows / sizeof *rows; k++) {
        const unsigned long met = draws_met;
        draws_give = &rows[k].drawn;
        EXPECT(opened(rows[k].asked, places), rows[k].is);
        draws_give = NULL;
        EXPECT(draws_met - met, rows[k].asked == 0);
    }
}

/* The seed that a cache has puts each key where that cache had it. Without one small keys lie in the
 * shard that their upper halves name. */
static void lie(void) {
    uint32_t drawn[KEYS] = {0}, again[KEYS] = {0}, plain[KEYS] = {0};
    const uint64_t seed = opened(0, drawn);
    EXPECT(opened(seed, again), seed);
    EXPECT(memcmp(drawn, again, sizeof drawn), 0);
    EXPECT(opened(FERRETGOLD_UNSEEDED, plain), FERRETGOLD_UNSEEDED);
    for (uint32_t number = 0; number < KEYS; number++) {
        EXPECT(plain[number] < asking(7).slots, true);
    }
}

/* A system that gives no number: an opening that needs one is refused, behind all that is wrong with
 * its configuration and before it asks for memory. */
static void refused(void) {
    const ferretgold_object_config config = asking(0), named = asking(7);
    ferretgold_object_config bad = config;
    ferretgold_object_cache *cache = NULL;
    const size_t blocks = heap_blocks;
    bad.gone = 0;
    draws_left = 0, heap_left = 0;
    EXPECT(ferretgold_object_open(&bad, ignore, NULL, &cache), FERRETGOLD_BAD_GONE);
    EXPECT(ferretgold_object_open(&config, ignore, NULL, &cache), FERRETGOLD_NO_SEED);
    EXPECT(ferretgold_object_open(&named, ignore, NULL, &cache), FERRETGOLD_OUT_OF_MEMORY);
    heap_left = SIZE_MAX;
    EXPECT(cache == NULL && heap_blocks == blocks, true);
    EXPECT(ferretgold_object_open(&named, ignore, NULL, &cache), FERRETGOLD_OK);
    EXPECT(ferretgold_object_close(cache), FERRETGOLD_OK);
    draws_left = -1;
}

void object_seeds(void) {
    given();
    lie();
    refused();
}
