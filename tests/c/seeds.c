/* Seeds of keys: what a cache is asked for, which it has then, and where keys lie by that; what a
 * system gives that has no number to draw. */
#include "ferretgold_closed.h"
#include "ferretgold_image.h"
#include "expect.h"
#include "heap.h"

#include <stdint.h>
#include <string.h>

enum { SHARDS = 2, SLOTS = 64, KEYS = 40 };

static ferretgold_config asking(uint64_t seed) {
    return (ferretgold_config){.slots = SLOTS, .room = 1, .clients = 1, .handles = 1,
                               .shards = SHARDS, .capacity = 600,
                               .serials = FERRETGOLD_MOST_SERIALS, .seed = seed};
}

/* Where each key lies, by its number, in a cache that is opened so; and its seed. */
typedef struct lying {
    uint64_t seed;
    uint32_t place[KEYS];
} lying;

/* Closes a cache, and says where its keys lie. */
static lying closed(ferretgold_cache *cache) {
    lying it = {0};
    ferretgold_config config;
    ferretgold_closed *left = NULL;
    EXPECT(ferretgold_config_of(cache, &config), 0);
    EXPECT(ferretgold_close_keeping(cache, &left), 0);
    for (uint32_t place = 0; place < SHARDS * SLOTS; place++) {
        ferretgold_entry entry;
        if (ferretgold_closed_entry(left, place / SLOTS, place % SLOTS, &entry) == FERRETGOLD_OK) {
            it.place[entry.key.w0 % KEYS] = place + 1;
        }
    }
    it.seed = config.seed;
    EXPECT(ferretgold_closed_config(left, &config), 0);
    EXPECT(config.seed, it.seed);
    ferretgold_closed_free(left);
    return it;
}

static lying opened(uint64_t seed) {
    const ferretgold_config config = asking(seed);
    ferretgold_cache *cache = NULL;
    ferretgold_client *client = NULL;
    EXPECT(ferretgold_open(&config, &cache), 0);
    EXPECT(ferretgold_client_open(cache, &client), 0);
    for (uint64_t number = 0; number < KEYS; number++) {
        const ferretgold_key key = {number, 5};
        EXPECT(ferretgold_insert(client, &key, "", 0, 1, FERRETGOLD_LOW, NULL), 0);
    }
    EXPECT(ferretgold_client_close(cache, client), 0);
    return closed(cache);
}

/* The same of a cache that begins with the keys. */
static lying reopened(uint64_t seed) {
    const ferretgold_config config = asking(seed);
    ferretgold_image *image = NULL;
    ferretgold_cache *cache = NULL;
    EXPECT(ferretgold_image_open(&image), 0);
    for (uint64_t number = 0; number < KEYS; number++) {
        const ferretgold_key key = {number, 5};
        EXPECT(ferretgold_image_add(image, &key, NULL, 0, 1, 1), 0);
    }
    EXPECT(ferretgold_reopen(&config, image, &cache, NULL), 0);
    return closed(cache);
}

/* Which seed a cache has, by what it is asked for and what the system gives; how often it is asked. */
static void given(lying (*opens)(uint64_t seed)) {
    static const struct { uint64_t asked, drawn, is; } rows[] = {
        {0, 99, 99}, {0, 0, 1}, {0, UINT64_MAX, UINT64_MAX - 1}, {0, UINT64_C(1) << 63, UINT64_C(1) << 63},
        {7, 99, 7}, {1, 99, 1}, {FERRETGOLD_UNSEEDED, 99, FERRETGOLD_UNSEEDED}};
    for (size_t k = 0; k < sizeof rows / sizeof *rows; k++) {
        const unsigned long met = draws_met;
        draws_give = &rows[k].drawn;
        const lying it = opens(rows[k].asked);
        draws_give = NULL;
        EXPECT(it.seed, rows[k].is);
        EXPECT(draws_met - met, rows[k].asked == 0);
    }
}

/* The seed that a cache has puts each key where that cache had it, and another one elsewhere. Without
 * one small keys lie in the shard that their upper halves name. */
static void lies(void) {
    const lying drawn = opened(0), again = opened(drawn.seed), other = opened(0);
    const lying plain = opened(FERRETGOLD_UNSEEDED), begun = reopened(FERRETGOLD_UNSEEDED);
    EXPECT(memcmp(&drawn, &again, sizeof drawn), 0);
    EXPECT(drawn.seed != other.seed, true);
    EXPECT(memcmp(drawn.place, other.place, sizeof drawn.place) != 0, true);
    EXPECT(memcmp(&plain, &begun, sizeof plain), 0);
    for (uint32_t number = 0; number < KEYS; number++) {
        EXPECT(drawn.place[number] > 0, true);
        EXPECT(plain.place[number] > 0 && plain.place[number] <= SLOTS, true);
    }
}

/* A system that gives no number: an opening that needs one is refused before it asks for memory, and
 * nothing remains; others go on. */
static void refused(void) {
    const ferretgold_config config = asking(0), named = asking(7);
    const size_t blocks = heap_blocks;
    ferretgold_cache *cache = NULL;
    ferretgold_image *image = NULL;
    size_t left_out = 77;
    EXPECT(ferretgold_image_open(&image), 0);
    draws_left = 0, heap_left = 0;
    EXPECT(ferretgold_open(&config, &cache), 45);
    EXPECT(ferretgold_reopen(&config, image, &cache, &left_out), 45);
    EXPECT(ferretgold_open(&named, &cache), 28);
    heap_left = SIZE_MAX;
    EXPECT(cache == NULL && left_out == 77 && heap_blocks == blocks, true);
    EXPECT(ferretgold_config_check(&config), 0);
    EXPECT(ferretgold_open(&named, &cache), 0);
    EXPECT(ferretgold_close(cache, NULL), 0);
    draws_left = -1;
    EXPECT(heap_blocks, blocks);
}

void seeds(void) {
    where = "seeds";
    given(opened);
    given(reopened);
    lies();
    refused();
}
