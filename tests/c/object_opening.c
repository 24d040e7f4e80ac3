/* Configurations of a cache of objects, which are refused or told, and the memory of a cache. */
#include "object_test.h"

#include <string.h>

static void delete_nothing(void *context, const ferretgold_key *key, void *object, uint16_t kind) {
    (void)context, (void)key, (void)object, (void)kind;
}

static ferretgold_object_cache *opened(const ferretgold_object_config *config) {
    ferretgold_object_cache *cache = NULL;
    EXPECT(ferretgold_object_open(config, delete_nothing, NULL, &cache), FERRETGOLD_OK);
    return cache;
}

/* Each field of a configuration that is out of its range. */
static void bad_configs(void) {
    const int wanted[] = {FERRETGOLD_BAD_SIZE, FERRETGOLD_BAD_SLOTS, FERRETGOLD_BAD_CLIENTS,
                          FERRETGOLD_BAD_HANDLES, FERRETGOLD_BAD_SHARDS, FERRETGOLD_BAD_CAPACITY,
                          FERRETGOLD_BAD_SERIALS, FERRETGOLD_BAD_GONE};
    ferretgold_object_config all[8];
    for (size_t k = 0; k < 8; k++) {
        all[k] = small_cache();
    }
    all[0].size = 40;
    all[1].slots = 4;
    all[2].clients = 0;
    all[3].handles = 0;
    all[4].shards = 0;
    all[5].capacity = (UINT64_C(1) << 40) + 1;
    all[6].serials = 0;
    all[7].gone = 3;
    heap_left = 0;
    for (size_t k = 0; k < 8; k++) {
        ferretgold_object_cache *cache = NULL;
        EXPECT(ferretgold_object_config_check(&all[k]), wanted[k]);
        EXPECT(ferretgold_object_memory(&all[k]), 0);
        EXPECT(ferretgold_object_open(&all[k], delete_nothing, NULL, &cache), wanted[k]);
    }
    heap_left = SIZE_MAX;
}

static void good_configs(void) {
    const ferretgold_object_config config = small_cache(), usual = FERRETGOLD_OBJECT_CONFIG;
    ferretgold_object_config same;
    ferretgold_object_cache *cache = opened(&config);
    EXPECT(ferretgold_object_config_of(cache, &same), FERRETGOLD_OK);
    EXPECT(memcmp(&config, &same, sizeof config), 0);
    EXPECT(ferretgold_object_close(cache), FERRETGOLD_OK);
    EXPECT(ferretgold_object_config_check(&usual), FERRETGOLD_OK);
    EXPECT(usual.slots == 4096 && usual.clients == 64 && usual.handles == 256 && usual.gone == 256, true);
    EXPECT(usual.shards == 4 && usual.size == 48 && usual.capacity == 46972928, true);
    EXPECT(usual.strict || usual.marks, false);
    EXPECT(usual.serials == UINT64_C(1) << 54 && usual.seed == 0, true);
}

/* What is allocated is what ferretgold_object_memory says; an opening that is refused leaves
 * nothing. */
static void memory(void) {
    const struct {
        uint32_t slots, clients, handles, gone, shards;
    } all[] = {{8, 1, 1, 4, 1}, {64, 65, 3, 7, 2}, {65536, 2, 5, 256, 1},
               {1024, 3, 16384, 65536, 4}};
    for (size_t k = 0; k < sizeof all / sizeof *all; k++) {
        ferretgold_object_config config = small_cache();
        config.slots = all[k].slots;
        config.clients = all[k].clients;
        config.handles = all[k].handles;
        config.gone = all[k].gone;
        config.shards = all[k].shards;
        const size_t was = heap_bytes;
        ferretgold_object_cache *cache = opened(&config);
#ifndef FERRETGOLD_CHECK
        EXPECT(heap_bytes - was, ferretgold_object_memory(&config));
#endif
        EXPECT(ferretgold_object_close(cache), FERRETGOLD_OK);
        EXPECT(heap_bytes, was);
    }
}

static void no_memory(void) {
    const size_t many = 1 << 20, blocks = heap_blocks;
    const ferretgold_object_config config = small_cache();
    heap_left = many;
    ferretgold_object_cache *cache = opened(&config);
    const size_t requests = many - heap_left;
    EXPECT(ferretgold_object_close(cache), FERRETGOLD_OK);
    for (size_t number = 0; number < 2 * requests; number++) {
        heap_left = number / 2;
        heap_once = number % 2;
        EXPECT(ferretgold_object_open(&config, delete_nothing, NULL, &cache), FERRETGOLD_OUT_OF_MEMORY);
        heap_left = SIZE_MAX;
        EXPECT(heap_blocks, blocks);
    }
    heap_once = 0;
}

void object_opening(void) {
    memory();
    no_memory();
    bad_configs();
    good_configs();
}
