/* Configurations for so much memory, and what comes of them; what to think over in one: each bit by a
 * cache in which entries find no place for that reason, and by one beside it in which all do. */
#include "expect.h"

#include <stdint.h>
#include <string.h>

/* What 84 of a hundred of 1,024 slots hold, in entries and in bytes of the longest values; and the
 * charges of seven tenths of the slots. */
enum { VALUE = 64, PLACES = 860, MOST = PLACES * VALUE, USUAL = 716 * VALUE };

/* ---- For so much memory ---------------------------------------------------------------------- */

/* Configurations from a budget: slots, room, handles, shards, and entries by the capacity. */
static void sizes(void) {
    static const struct {
        uint64_t bytes;
        uint32_t value, threads, slots, room, handles, shards;
        uint64_t entries;
        bool half;
    } all[] = {
        {UINT64_C(1) << 30, 4096, 32, 4096, 512, 16, 32, 91750, true},
        {1 << 20, 15, 4, 2048, 2, 16, 4, 5734, true},
        {1 << 20, 16, 1, 8192, 2, 16, 1, 5734, true},
        {100000, 8, 7, 1024, 1, 16, 1, 716, true},
        {160000, 8, 8, 1024, 1, 16, 2, 1433, true},
        {2440, 0, 1, 8, 1, 1, 1, 5, true},
        {3872, 0, 1, 16, 1, 3, 1, 11, true},
        {UINT64_MAX, 4096, 1, 65536, 512, 16, 64, 2936012, false},
        /* more slots where there are fewer shards than threads, or more */
        {70 << 20, 4096, 64, 8192, 512, 16, 2, 11468, true},
        {5 << 20, 1000, 1, 2048, 125, 16, 2, 2867, true},
        /* handles of all clients are within a quarter of a shard, but one each */
        {18 << 20, 4096, 64, 1024, 512, 3, 2, 1433, true},
        {340000, 8, 300, 256, 1, 1, 1, 179, true},
        /* next to half, and below */
        {6 << 20, 4096, 1, 512, 512, 16, 1, 358, false},
        {UINT64_C(1) << 30, 64, 64, 65536, 8, 16, 64, 2936012, true},
        {UINT64_C(4) << 30, 64, 64, 65536, 8, 16, 64, 2936012, false}};
    for (size_t k = 0; k < sizeof all / sizeof *all; k++) {
        ferretgold_config it;
        ferretgold_fit fit;
        EXPECT(ferretgold_config_for(all[k].bytes, all[k].value, all[k].threads, &it, &fit), 0);
        EXPECT(it.slots, all[k].slots);
        EXPECT(it.room, all[k].room);
        EXPECT(it.handles, all[k].handles);
        EXPECT(it.shards, all[k].shards);
        EXPECT(it.clients, all[k].threads);
        EXPECT(it.capacity, all[k].entries * all[k].room * 8);
        EXPECT(it.seed == 0 && it.serials == FERRETGOLD_MOST_SERIALS, true);
        EXPECT(it.strict || it.marks || it.size != sizeof it, false);
        EXPECT(fit.bytes, ferretgold_memory(&it));
        EXPECT(fit.bytes <= all[k].bytes, true);
        EXPECT(fit.entries, all[k].entries);
        EXPECT(fit.values, all[k].entries * all[k].value);
        EXPECT(fit.half, all[k].half);
        EXPECT(ferretgold_config_advice(&it), all[k].threads == 300);
    }
}

/* With as many bytes as it is told twice as many entries fit, and with one less they don't. Of the most
 * the half is told to the byte. */
static void told(void) {
    static const struct { uint32_t value, threads; } all[] = {{4096, 64}, {1000, 1}, {64, 8}, {0, 3}};
    for (size_t k = 0; k < sizeof all / sizeof *all; k++) {
        const uint32_t value = all[k].value, threads = all[k].threads;
        ferretgold_config it;
        ferretgold_fit fit, next, none;
        EXPECT(ferretgold_config_for(10000000, value, threads, &it, &fit), 0);
        for (; fit.more != 0; fit = next) {
            EXPECT(ferretgold_config_for(fit.more, value, threads, &it, &next), 0);
            EXPECT(next.entries / 2, fit.entries);
            EXPECT(next.bytes, fit.more);
            EXPECT(ferretgold_config_for(fit.more - 1, value, threads, &it, &none), 0);
            EXPECT(none.entries, fit.entries);
        }
        EXPECT(fit.entries, 2936012);
        EXPECT(ferretgold_config_for(2 * fit.bytes, value, threads, &it, &none), 0);
        EXPECT(none.half, true);
        EXPECT(ferretgold_config_for(2 * fit.bytes + 1, value, threads, &it, &none), 0);
        EXPECT(none.half, false);
    }
}

static void refused(void) {
    ferretgold_config it = {.slots = 77};
    ferretgold_fit fit = {.bytes = 77};
    EXPECT(ferretgold_config_for(1 << 20, 8, 1, NULL, &fit), 16);
    EXPECT(ferretgold_config_for(1 << 20, 4097, 1, &it, &fit), 30);
    EXPECT(ferretgold_config_for(1 << 20, 8, 0, &it, &fit), 31);
    EXPECT(ferretgold_config_for(1 << 20, 8, 1025, &it, &fit), 31);
    EXPECT(ferretgold_config_for(2311, 8, 1, &it, &fit), 29);
    EXPECT(it.slots == 77 && fit.bytes == 77, true);
    EXPECT(ferretgold_config_for(UINT64_MAX, 4096, 1024, &it, NULL), 0);
    EXPECT(it.shards == 64 && it.clients == 1024, true);
}

/* ---- What to think over ---------------------------------------------------------------------- */

static ferretgold_key key_of(uint64_t number) {
    return (ferretgold_key){number, 5};
}

/* Has clients hold so many new entries in turns, and inserts more without a handle: how many of all
 * found no place. */
static uint32_t unplaced(ferretgold_client **clients, uint32_t count, uint32_t held, uint32_t more) {
    uint32_t placed = 0;
    for (uint32_t k = 0; k < held + more; k++) {
        const ferretgold_key key = key_of(k);
        ferretgold_inserted came = FERRETGOLD_DROPPED;
        ferretgold_handle handle;
        const ferretgold_status status =
            k < held ? ferretgold_insert_pinned(clients[k % count], &key, "", 0, VALUE, FERRETGOLD_LOW,
                                                &came, &handle)
                     : ferretgold_insert(clients[0], &key, "", 0, VALUE, FERRETGOLD_LOW, &came);
        placed += status == FERRETGOLD_OK && came == FERRETGOLD_PLACED;
    }
    return held + more - placed;
}

/* The same in a cache of its own. */
static uint32_t unplaced_in(const ferretgold_config *config, uint32_t held, uint32_t more) {
    ferretgold_client *clients[4] = {NULL};
    ferretgold_cache *cache = NULL;
    EXPECT(ferretgold_open(config, &cache), 0);
    for (uint32_t k = 0; k < config->clients; k++) {
        EXPECT(ferretgold_client_open(cache, &clients[k]), 0);
    }
    const uint32_t count = unplaced(clients, config->clients, held, more);
    for (uint32_t k = 0; k < config->clients; k++) {
        EXPECT(ferretgold_client_close_releasing(cache, clients[k]), 0);
    }
    EXPECT(ferretgold_close(cache, NULL), 0);
    return count;
}

/* What there is to think over, and how many find no place of entries that are held and of some more.
 * Clients that may hold so many are something to think over, too. */
static void harm(void) {
    enum { MANY = 1, LARGE = 2, SMALL = 4, SHARDS = 8 };
    static const struct {
        const char *what;
        uint32_t advice, slots, shards, clients, handles;
        bool strict;
        uint64_t capacity;
        uint32_t held, more, least, most; /* of those that find no place */
    } all[] = {
        {"held: ", MANY, 1024, 1, 4, PLACES / 4, false, USUAL, PLACES, 100, 100, 100},
        {"fewer: ", 0, 1024, 1, 4, PLACES / 4 / 4, false, USUAL, PLACES / 4 / 4 * 4, 1000, 0, 0},
        {"large: ", MANY | LARGE, 1024, 1, 4, 256, true, 1024 * VALUE, 1024, 0, 1024 - PLACES,
         1024 - PLACES},
        {"not so large: ", MANY, 1024, 1, 4, 256, true, MOST, PLACES, 0, 0, 0},
        {"small: ", MANY | SMALL, 1024, 1, 4, 256, true, 200 * VALUE, PLACES / 2, 0,
         PLACES / 2 - 200, PLACES / 2 - 200},
        {"not so small: ", MANY, 1024, 1, 4, 256, true, MOST / 2, PLACES / 2, 0, 0, 0},
        {"shards: ", MANY | SHARDS, 16, 64, 1, 600, true, USUAL, 600, 0, 20, 200},
        {"fewer shards: ", MANY, 1024, 1, 1, 600, true, USUAL, 600, 0, 0, 0},
        {"larger ones: ", MANY, 1024, 2, 1, 1200, true, 2 * USUAL, 1200, 0, 0, 0}};
    for (size_t k = 0; k < sizeof all / sizeof *all; k++) {
        const ferretgold_config it = {.slots = all[k].slots, .room = VALUE / 8,
                                      .clients = all[k].clients, .handles = all[k].handles,
                                      .shards = all[k].shards, .strict = all[k].strict,
                                      .capacity = all[k].capacity,
                                      .serials = FERRETGOLD_MOST_SERIALS, .seed = 1};
        where = all[k].what;
        EXPECT(ferretgold_config_advice(&it), all[k].advice);
        const uint32_t count = unplaced_in(&it, all[k].held, all[k].more);
        EXPECT(count >= all[k].least && count <= all[k].most, true);
    }
    where = "budgets";
}

/* Each bit at its bound, in bytes and where entries are charged 1 each. */
static void bounds(void) {
    static const struct {
        uint32_t slots, room, clients, handles, shards;
        uint64_t capacity;
        uint32_t advice;
    } all[] = {
        {1024, 8, 5, 43, 1, USUAL, 0},        {1024, 8, 6, 36, 1, USUAL, 1},
        {1024, 8, 1, 215, 2, 2 * USUAL, 0},   {1024, 8, 1, 216, 2, 2 * USUAL, 1},
        {1024, 8, 1, 1, 1, MOST, 0},          {1024, 8, 1, 1, 1, MOST + 1, 2},
        {1024, 8, 1, 1, 1, MOST / 2, 0},      {1024, 8, 1, 1, 1, MOST / 2 - 1, 4},
        {1024, 8, 1, 1, 4, 4 * MOST, 0},      {1024, 8, 1, 1, 4, 4 * MOST + 1, 2},
        {1024, 8, 1, 1, 1, PLACES, 0},        {1024, 8, 1, 1, 1, PLACES + 1, 2},
        {1024, 8, 1, 1, 1, PLACES / 2, 0},    {1024, 8, 1, 1, 1, PLACES / 2 - 1, 4},
        {1024, 8, 1, 1, 1, 1024, 2},          {1024, 8, 1, 1, 1, 1025, 4},
        {512, 8, 1, 1, 1, USUAL / 2, 0},      {512, 8, 1, 1, 2, USUAL, 8},
        {8, 1, 1, 16, 2, 0, 1 + 4 + 8},       {9, 8, 1, 999, 2, 1, 0}};
    for (size_t k = 0; k < sizeof all / sizeof *all; k++) {
        const ferretgold_config it = {.slots = all[k].slots, .room = all[k].room,
                                      .clients = all[k].clients, .handles = all[k].handles,
                                      .shards = all[k].shards, .capacity = all[k].capacity,
                                      .serials = FERRETGOLD_MOST_SERIALS};
        EXPECT(ferretgold_config_advice(&it), all[k].advice);
    }
    EXPECT(ferretgold_config_advice(NULL), 0);
}

static void texts(void) {
    static const char *const begins[] = {"clients may hold more", "slots are full before",
                                         "the capacity leaves", "shards of fewer"};
    for (uint32_t bit = 0; bit < 32; bit++) {
        const char *text = ferretgold_advice_text(UINT32_C(1) << bit);
        const char *wanted = bit < 4 ? begins[bit] : "unknown";
        EXPECT(strncmp(text, wanted, strlen(wanted)), 0);
    }
    EXPECT(strcmp(ferretgold_advice_text(0), "unknown"), 0);
}

void budgets(void) {
    where = "budgets";
    sizes();
    told();
    refused();
    harm();
    bounds();
    texts();
}
