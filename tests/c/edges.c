/* What no trace shows: configurations, texts, null pointers, what a client refuses; clients that go
 * out and come back. */
#include "expect.h"
#include "heap.h"

#include <stdint.h>
#include <string.h>

static const ferretgold_key KEY = {1, 2};
static const ferretgold_key OTHER = {3, 4};
static const ferretgold_config SMALL = {.slots = 8, .room = 2, .clients = 2, .handles = 8,
                                        .shards = 1, .capacity = 600,
                                        .serials = FERRETGOLD_MOST_SERIALS, .seed = 1};

static void texts(void) {
    static const struct { int status; const char *text; } all[] = {
        {0, "ok"}, {1, "miss"}, {16, "a pointer is null"},
        {17, "the client holds no such handle"}, {18, "the charge is 0"},
        {19, "the value is longer than a slot has room for"},
        {20, "the buffer is shorter than the value"}, {21, "the priority is unknown"},
        {22, "there is no such shard or slot"},
        {23, "the client holds as many handles as it may"},
        {24, "the client has used all its serials"},
        {25, "the charge is above a shard's capacity"},
        {26, "evictions freed too little of the charge"}, {27, "evictions freed no slot"},
        {28, "an allocation failed"}, {29, "slots must be a power of two from 8 to 65,536"},
        {30, "room must be 1 to 512"}, {31, "clients must be 1 to 1,024"},
        {32, "handles must be 1 to 16,384"}, {33, "shards must be a power of two from 1 to 64"},
        {34, "capacity must be at most 2^40"}, {35, "serials must be 1 to 2^54"},
        {36, "all clients of the cache are out, or this one was given back"},
        {37, "the client is one of another cache"},
        {38, "the client holds handles"}, {39, "clients of the cache are out"},
        {40, "the library doesn't know this size of configuration"},
        {41, "the client's list is full"}, {42, "the object's address is 2^48 or above"},
        {43, "gone must be 4 to 65,536"}, {44, "objects weren't taken off a list"},
        {45, "the system has no number for a seed yet"}, {46, "somebody else has the cache"},
        {2, "unknown"}, {47, "unknown"}};
    for (size_t k = 0; k < sizeof all / sizeof *all; k++) {
        EXPECT(strcmp(ferretgold_status_text((ferretgold_status)all[k].status), all[k].text), 0);
    }
    EXPECT(strcmp(ferretgold_version(), FERRETGOLD_VERSION), 0);
}

/* Each field of a configuration, one below and one above what it may be: no memory is asked for, and
 * no number drawn. */
static void configurations(void) {
    ferretgold_cache *none = NULL;
    ferretgold_config all[18];
    static const int wanted[] = {29, 29, 29, 29, 30, 30, 31, 31, 32,
                                 32, 33, 33, 33, 33, 34, 34, 35, 35};
    for (size_t k = 0; k < 18; k++) {
        all[k] = SMALL, all[k].seed = 0;
    }
    all[0].slots = 0, all[1].slots = 4, all[2].slots = 9, all[3].slots = 131072;
    all[4].room = 0, all[5].room = 513;
    all[6].clients = 0, all[7].clients = 1025;
    all[8].handles = 0, all[9].handles = 16385;
    all[10].shards = 0, all[11].shards = 3, all[12].shards = 65, all[13].shards = 128;
    all[14].capacity = (UINT64_C(1) << 40) + 1, all[15].capacity = UINT64_MAX;
    all[16].serials = 0, all[17].serials = FERRETGOLD_MOST_SERIALS + 1;
    for (size_t k = 0; k < 18; k++) {
        heap_left = 0, draws_left = 0;
        EXPECT(ferretgold_open(&all[k], &none), wanted[k]);
        heap_left = SIZE_MAX, draws_left = -1;
        EXPECT(ferretgold_config_check(&all[k]), wanted[k]);
        EXPECT(ferretgold_memory(&all[k]), 0);
    }
    EXPECT(none == NULL, true);
}

/* A cache says what it was opened with. */
static void opened(void) {
    ferretgold_config config = SMALL, is = {0, 0, 0, 0, 0, false, false, 0, 0, 0, 0};
    ferretgold_cache *cache = NULL;
    config.strict = true, config.marks = true, config.shards = 2, config.seed = 77;
    EXPECT(ferretgold_config_check(&config), 0);
    EXPECT(ferretgold_open(&config, &cache), 0);
    EXPECT(ferretgold_config_of(cache, &is), 0);
    EXPECT(is.slots == 8 && is.room == 2 && is.clients == 2 && is.handles == 8, true);
    EXPECT(is.shards == 2 && is.strict && is.marks && is.capacity == 600, true);
    EXPECT(is.serials == FERRETGOLD_MOST_SERIALS && is.seed == 77, true);
    EXPECT(ferretgold_value_limit(cache), 16);
    EXPECT(ferretgold_close(cache, NULL), 0);
}

/* A configuration says its size, or none; another one comes before all that it has. */
static void sizes(void) {
    static const struct { uint16_t size; int wanted; } all[] = {
        {0, 0}, {sizeof(ferretgold_config), 0}, {1, 40}, {47, 40}, {49, 40}, {UINT16_MAX, 40}};
    for (size_t k = 0; k < sizeof all / sizeof *all; k++) {
        ferretgold_config it = SMALL;
        ferretgold_cache *cache = NULL;
        it.size = all[k].size;
        EXPECT(ferretgold_config_check(&it), all[k].wanted);
        EXPECT(ferretgold_memory(&it) > 0, all[k].wanted == 0);
        EXPECT(ferretgold_open(&it, &cache), all[k].wanted);
        EXPECT(cache == NULL, all[k].wanted != 0);
        if (cache != NULL) {
            EXPECT(ferretgold_close(cache, NULL), 0);
        } else {
            it.slots = 0;
            EXPECT(ferretgold_open(&it, &cache), 40);
        }
    }
}

/* What is allocated is what ferretgold_memory says; a table of 4 MiB or more is of whole pages of
 * 2 MiB. */
static void memory(void) {
    static const struct { uint32_t slots, room, clients, handles, shards, large; } all[] = {
        {8, 1, 1, 1, 1, 0},     {16, 1, 1, 1, 1, 0},    {8, 2, 1, 1, 1, 0},
        {8, 1, 2, 1, 1, 0},     {8, 1, 1, 3, 1, 0},     {8, 1, 1, 1, 8, 0},
        {8, 3, 5, 7, 64, 0},    {32, 5, 64, 9, 2, 0},   {32, 5, 65, 9, 2, 0},
        {8, 1, 999, 1, 1, 0},   {64, 512, 3, 99, 16, 0}, {32768, 8, 1, 1, 1, 0},
        {65536, 1, 1, 1, 1, 1}, {65536, 2, 2, 3, 4, 4}, {8192, 505, 1, 1, 1, 1}};
    for (size_t k = 0; k < sizeof all / sizeof *all; k++) {
        ferretgold_config sizes = SMALL;
        ferretgold_cache *cache = NULL;
        const size_t was = heap_bytes;
        sizes.slots = all[k].slots, sizes.room = all[k].room, sizes.clients = all[k].clients;
        sizes.handles = all[k].handles, sizes.shards = all[k].shards;
        EXPECT(ferretgold_open(&sizes, &cache), 0);
        EXPECT(heap_bytes - was, ferretgold_memory(&sizes));
        EXPECT(heap_large(), all[k].large);
        EXPECT(ferretgold_close(cache, NULL), 0);
    }
    EXPECT(ferretgold_memory(NULL), 0);
}

/* Each request of an opening refused in turn: nothing remains. */
static void no_memory(uint32_t slots) {
    const size_t was = heap_blocks;
    ferretgold_config sizes = SMALL;
    ferretgold_cache *cache = NULL;
    size_t met = 0;
    sizes.slots = slots;
    for (ferretgold_status status = FERRETGOLD_NULL; status != FERRETGOLD_OK; met++) {
        heap_left = met;
        status = ferretgold_open(&sizes, &cache);
        heap_left = SIZE_MAX;
        EXPECT(status, cache == NULL ? 28 : 0);
        EXPECT(heap_blocks - was > 0, cache != NULL);
    }
    EXPECT(met > 10, true);
    EXPECT(ferretgold_close(cache, NULL), 0);
}

/* An insertion with a handle asks for memory where its entry comes to stand alone, once, and last: refused,
 * it leaves nothing but that a serial was used. */
static void no_copy(void) {
    static const struct { int priority; uint32_t charge; size_t length; bool is_there; int none, one; } all[] = {
        {3, 1, 1, true, 21, 21}, {1, 0, 1, true, 18, 18}, {1, 1, 17, true, 19, 19}, {1, 1, 1, true, 28, 0},
        {1, 1, 16, true, 28, 0}, {1, 1, 0, true, 0, 0},   {1, 1, 16, false, 0, 0}};
    ferretgold_cache *cache = NULL;
    ferretgold_client *it = NULL;
    const char bytes[17] = {0};
    EXPECT(ferretgold_open(&SMALL, &cache), 0);
    EXPECT(ferretgold_client_open(cache, &it), 0);
    EXPECT(ferretgold_insert(it, &KEY, "", 0, 1, FERRETGOLD_LOW, NULL), 0);
    for (size_t k = 0; k < sizeof all / sizeof *all; k++) {
        for (size_t more = 0; more < 2; more++) {
            const uint64_t left = ferretgold_serials_left(it);
            ferretgold_handle handle = {0, UINT64_MAX, 0, 0};
            ferretgold_inserted inserted = (ferretgold_inserted)7;
            uint64_t usage = 0;
            heap_left = more;
            const ferretgold_status status = ferretgold_insert_pinned(
                it, all[k].is_there ? &KEY : &OTHER, bytes, all[k].length, all[k].charge,
                (ferretgold_priority)all[k].priority, &inserted, &handle);
            EXPECT(more - heap_left, more == 1 && all[k].none == 28);
            heap_left = SIZE_MAX;
            EXPECT(status, more == 0 ? all[k].none : all[k].one);
            EXPECT(left - ferretgold_serials_left(it), status == 0 || status == 28);
            EXPECT(ferretgold_held(it), status == 0);
            EXPECT(inserted, status != 0 ? 7 : all[k].is_there ? FERRETGOLD_STANDALONE : FERRETGOLD_PLACED);
            EXPECT(handle.serial == UINT64_MAX, status != 0);
            EXPECT(status != 0 ? 0 : ferretgold_release(it, handle, false, true, NULL), 0);
            EXPECT(ferretgold_usage(it, &usage), 0);
            EXPECT(usage, 1);
        }
    }
    EXPECT(ferretgold_client_close(cache, it), 0);
    EXPECT(ferretgold_close(cache, NULL), 0);
}

/* The configuration to begin with, field by field, is one that a cache can have. */
static void initialiser(void) {
    const ferretgold_config config = FERRETGOLD_CONFIG;
    ferretgold_cache *cache = NULL;
    EXPECT(ferretgold_open(&config, &cache), 0);
    EXPECT(ferretgold_close(cache, NULL), 0);
    EXPECT(config.slots == 2048 && config.room == 512 && config.clients == 16, true);
    EXPECT(config.handles == 16 && config.shards == 2 && config.size == 48, true);
    EXPECT(config.strict || config.marks, false);
    EXPECT(config.capacity == 11743232 && config.serials == UINT64_C(1) << 54 && config.seed == 0, true);
    EXPECT(ferretgold_config_advice(&config), 0);
    EXPECT(config.capacity, config.slots * config.shards * UINT64_C(7) / 10 * config.room * 8);
}

/* Null where a pointer may not be null, in the calls of a cache. */
static void nulls_of_cache(ferretgold_cache *cache, ferretgold_client *client) {
    ferretgold_cache *other = NULL;
    ferretgold_config config;
    EXPECT(ferretgold_config_check(NULL), 16);
    EXPECT(ferretgold_config_of(NULL, &config), 16);
    EXPECT(ferretgold_config_of(cache, NULL), 16);
    EXPECT(ferretgold_value_limit(NULL), 0);
    EXPECT(ferretgold_open(NULL, &other), 16);
    EXPECT(ferretgold_open(&SMALL, NULL), 16);
    EXPECT(ferretgold_client_open(NULL, &client), 16);
    EXPECT(ferretgold_client_open(cache, NULL), 16);
    EXPECT(ferretgold_client_close(NULL, client), 16);
    EXPECT(ferretgold_client_close(cache, NULL), 16);
    EXPECT(ferretgold_client_close_releasing(NULL, client), 16);
    EXPECT(ferretgold_client_close_releasing(cache, NULL), 16);
    EXPECT(ferretgold_close(NULL, NULL), 16);
}

/* And in those of a client, whether it is out or idle, and whatever else is due. */
static void nulls(ferretgold_client *it) {
    const ferretgold_priority none = (ferretgold_priority)3;
    ferretgold_handle handle = {0, 0, 0, 0};
    ferretgold_key key = {0, 0};
    ferretgold_stats stats;
    uint64_t wide = 0;
    size_t length = 0;
    char byte = 0;
    EXPECT(ferretgold_lookup(NULL, &KEY, &handle), 16);
    EXPECT(ferretgold_lookup(it, NULL, &handle), 16);
    EXPECT(ferretgold_lookup(it, &KEY, NULL), 16);
    EXPECT(ferretgold_reref(NULL, handle, &handle), 16);
    EXPECT(ferretgold_reref(it, handle, NULL), 16);
    EXPECT(ferretgold_release(NULL, handle, true, true, NULL), 16);
    EXPECT(ferretgold_insert(NULL, &KEY, &byte, 1, 0, none, NULL), 16);
    EXPECT(ferretgold_insert(it, NULL, &byte, 1, 0, none, NULL), 16);
    EXPECT(ferretgold_insert(it, &KEY, NULL, 1, 0, none, NULL), 16);
    EXPECT(ferretgold_insert_pinned(NULL, &KEY, &byte, 1, 0, none, NULL, &handle), 16);
    EXPECT(ferretgold_insert_pinned(it, NULL, &byte, 1, 0, none, NULL, &handle), 16);
    EXPECT(ferretgold_insert_pinned(it, &KEY, NULL, 1, 0, none, NULL, &handle), 16);
    EXPECT(ferretgold_insert_pinned(it, &KEY, &byte, 1, 0, none, NULL, NULL), 16);
    EXPECT(ferretgold_erase(NULL, &KEY, NULL), 16);
    EXPECT(ferretgold_erase(it, NULL, NULL), 16);
    EXPECT(ferretgold_handle_key(NULL, handle, &key), 16);
    EXPECT(ferretgold_handle_key(it, handle, NULL), 16);
    EXPECT(ferretgold_value_len(NULL, handle, &length), 16);
    EXPECT(ferretgold_value_len(it, handle, NULL), 16);
    EXPECT(ferretgold_read_value(NULL, handle, &byte, 1, &length), 16);
    EXPECT(ferretgold_read_value(it, handle, NULL, 1, &length), 16);
    EXPECT(ferretgold_read_part(NULL, handle, 0, &byte, 1, NULL), 16);
    EXPECT(ferretgold_read_part(it, handle, 0, NULL, 1, NULL), 16);
    EXPECT(ferretgold_get(NULL, &KEY, &byte, 1, true, &length), 16);
    EXPECT(ferretgold_get(it, NULL, &byte, 1, true, &length), 16);
    EXPECT(ferretgold_get(it, &KEY, NULL, 1, true, &length), 16);
    EXPECT(ferretgold_get_part(NULL, &KEY, 0, &byte, 1, true, NULL), 16);
    EXPECT(ferretgold_get_part(it, NULL, 0, &byte, 1, true, NULL), 16);
    EXPECT(ferretgold_get_part(it, &KEY, 0, NULL, 1, true, NULL), 16);
    EXPECT(ferretgold_usage(NULL, &wide), 16);
    EXPECT(ferretgold_usage(it, NULL), 16);
    EXPECT(ferretgold_pinned_usage(NULL, &wide), 16);
    EXPECT(ferretgold_pinned_usage(it, NULL), 16);
    EXPECT(ferretgold_occupancy(NULL, &wide), 16);
    EXPECT(ferretgold_occupancy(it, NULL), 16);
    EXPECT(ferretgold_word(NULL, 9, 9, &wide), 16);
    EXPECT(ferretgold_word(it, 9, 9, NULL), 16);
    EXPECT(ferretgold_displacement(NULL, 9, 9, &wide), 16);
    EXPECT(ferretgold_displacement(it, 9, 9, NULL), 16);
    EXPECT(ferretgold_statistics(NULL, &stats), 16);
    EXPECT(ferretgold_statistics(it, NULL), 16);
    EXPECT(ferretgold_holds(NULL, handle), 0);
    EXPECT(ferretgold_held(NULL), 0);
    EXPECT(ferretgold_serials_left(NULL), 0);
    EXPECT(ferretgold_client_number(NULL), 0);
}

/* A handle that the client doesn't hold: each call refuses it, and leaves its outputs. */
static void no_handle(ferretgold_client *it, ferretgold_handle handle) {
    ferretgold_handle more = {5, 5, 5, 5};
    ferretgold_key key = {5, 5};
    size_t length = 5;
    bool freed = true;
    char byte = 5;
    EXPECT(ferretgold_holds(it, handle), 0);
    EXPECT(ferretgold_reref(it, handle, &more), 17);
    EXPECT(ferretgold_release(it, handle, true, true, &freed), 17);
    EXPECT(ferretgold_handle_key(it, handle, &key), 17);
    EXPECT(ferretgold_value_len(it, handle, &length), 17);
    EXPECT(ferretgold_read_value(it, handle, &byte, 1, &length), 17);
    EXPECT(ferretgold_read_part(it, handle, 0, &byte, 1, NULL), 17);
    EXPECT(more.serial == 5 && key.w0 == 5 && length == 5 && freed && byte == 5, true);
}

/* The first handles of the first caches of a process, which are numbered from what was drawn on: no call
 * gives one of zeros, nor takes it. */
static void first_handles(void) {
    const ferretgold_handle zeros = {0, 0, 0, 0};
    const uint64_t drawn = UINT32_MAX - 3;
    const uint32_t numbers[] = {UINT32_MAX - 1, UINT32_MAX, 1};
    ferretgold_config one = SMALL;
    one.clients = 1;
    draws_give = &drawn;
    for (int k = 0; k < 3; k++) {
        ferretgold_cache *cache = NULL;
        ferretgold_client *it = NULL;
        ferretgold_handle handle;
        EXPECT(ferretgold_open(&one, &cache), 0);
        EXPECT(ferretgold_client_open(cache, &it), 0);
        EXPECT(ferretgold_insert_pinned(it, &KEY, "", 0, 1, FERRETGOLD_LOW, NULL, &handle), 0);
        EXPECT(handle.index + handle.serial + handle.client, 0);
        EXPECT(handle.cache, numbers[k]);
        no_handle(it, zeros);
        EXPECT(ferretgold_client_close_releasing(cache, it), 0);
        EXPECT(ferretgold_close(cache, NULL), 0);
    }
    EXPECT(draws_met, 1);
    draws_give = NULL;
}

/* What a client refuses of values, charges, priorities, slots; outputs that may be null. */
static void refusals(ferretgold_client *it, ferretgold_client *other) {
    ferretgold_handle handle = {0, 5, 0, 0}, held = {0, 0, 0, 0};
    ferretgold_inserted inserted = (ferretgold_inserted)7;
    uint64_t wide = 5;
    const uint32_t least = 1;
    char bytes[17] = {0};
    for (int k = 0; k < 2; k++) {
        uint32_t charge = k == 0 ? 0 : least;
        size_t length = k == 0 ? 1 : 17;
        EXPECT(ferretgold_insert(it, &KEY, bytes, length, charge, FERRETGOLD_LOW, &inserted),
               18 + k);
        EXPECT(ferretgold_insert_pinned(it, &KEY, bytes, length, charge, FERRETGOLD_LOW, &inserted,
                                        &handle), 18 + k);
    }
    EXPECT(ferretgold_insert(it, &KEY, bytes, 1, 1, (ferretgold_priority)3, &inserted), 21);
    EXPECT(ferretgold_insert_pinned(it, &KEY, bytes, 1, 1, (ferretgold_priority)3, &inserted,
                                    &handle), 21);
    EXPECT(handle.serial == 5 && (int)inserted == 7, true);
    EXPECT(ferretgold_word(it, 1, 0, &wide), 22);
    EXPECT(ferretgold_word(it, 0, 8, &wide), 22);
    EXPECT(ferretgold_displacement(it, 1, 0, &wide), 22);
    EXPECT(ferretgold_displacement(it, 0, 8, &wide), 22);
    EXPECT(wide, 5);
    EXPECT(ferretgold_insert(it, &OTHER, "", 0, 1, FERRETGOLD_LOW, NULL), 0);
    EXPECT(ferretgold_insert_pinned(it, &KEY, "ab", 2, 1, FERRETGOLD_LOW, NULL, &held), 0);
    no_handle(other, held);
    no_handle(it, handle);
    EXPECT(ferretgold_get(it, &KEY, bytes, 2, true, NULL), 0);
    EXPECT(ferretgold_get_part(it, &KEY, 0, NULL, 0, true, NULL), 0);
    EXPECT(memcmp(bytes, "ab", 2), 0);
    EXPECT(ferretgold_erase(it, &OTHER, NULL), 0);
    EXPECT(ferretgold_erase(it, &KEY, NULL), 0);
    EXPECT(ferretgold_release(it, held, true, false, NULL), 0);
    no_handle(it, held);
}

/* A client that is idle: each call refuses it, whatever else is due, and leaves its outputs. */
static void idle(ferretgold_cache *cache, ferretgold_client *it, ferretgold_handle handle) {
    ferretgold_handle given = {5, 5, 5, 5};
    ferretgold_inserted inserted = (ferretgold_inserted)7;
    ferretgold_stats stats = {5, 5, 5, 5, 5, 5, 5, 5};
    ferretgold_key key = {5, 5};
    uint64_t wide = 5;
    uint32_t hidden = 5;
    ferretgold_part part = {5, 5};
    size_t length = 5;
    bool freed = true;
    char byte = 5;
    EXPECT(ferretgold_lookup(it, &KEY, &given), 36);
    EXPECT(ferretgold_reref(it, handle, &given), 36);
    EXPECT(ferretgold_release(it, handle, true, true, &freed), 36);
    EXPECT(ferretgold_insert(it, &KEY, "", 0, 0, (ferretgold_priority)3, &inserted), 36);
    EXPECT(ferretgold_insert_pinned(it, &KEY, "", 0, 0, (ferretgold_priority)3, &inserted, &given),
           36);
    EXPECT(ferretgold_erase(it, &KEY, &hidden), 36);
    EXPECT(ferretgold_handle_key(it, handle, &key), 36);
    EXPECT(ferretgold_value_len(it, handle, &length), 36);
    EXPECT(ferretgold_read_value(it, handle, &byte, 1, &length), 36);
    EXPECT(ferretgold_read_part(it, handle, 0, &byte, 1, NULL), 36);
    EXPECT(ferretgold_get(it, &KEY, &byte, 1, true, &length), 36);
    EXPECT(ferretgold_get_part(it, &KEY, 0, &byte, 1, true, &part), 36);
    EXPECT(ferretgold_usage(it, &wide), 36);
    EXPECT(ferretgold_pinned_usage(it, &wide), 36);
    EXPECT(ferretgold_occupancy(it, &wide), 36);
    EXPECT(ferretgold_word(it, 9, 9, &wide), 36);
    EXPECT(ferretgold_displacement(it, 9, 9, &wide), 36);
    EXPECT(ferretgold_statistics(it, &stats), 36);
    EXPECT(ferretgold_client_close(cache, it), 36);
    EXPECT(ferretgold_client_close_releasing(cache, it), 36);
    EXPECT(given.serial == 5 && inserted == 7 && stats.probes == 5 && key.w0 == 5, true);
    EXPECT(wide == 5 && hidden == 5 && length == 5 && freed && byte == 5, true);
    EXPECT(part.given == 5 && part.length == 5, true);
    EXPECT(ferretgold_holds(it, handle), false);
    EXPECT(ferretgold_held(it), 0);
    EXPECT(ferretgold_serials_left(it), 0);
    EXPECT(ferretgold_client_number(it), 0);
}

/* Two caches of one configuration: each refuses the other's handles and clients. */
static void two_caches(ferretgold_cache *cache, ferretgold_client *it) {
    ferretgold_cache *second = NULL;
    ferretgold_client *foreign = NULL;
    ferretgold_handle handle, other;
    EXPECT(ferretgold_open(&SMALL, &second), 0);
    EXPECT(ferretgold_client_open(second, &foreign), 0);
    EXPECT(ferretgold_client_number(foreign), ferretgold_client_number(it));
    EXPECT(ferretgold_insert_pinned(it, &KEY, "a", 1, 1, FERRETGOLD_LOW, NULL, &handle), 0);
    EXPECT(ferretgold_insert_pinned(foreign, &KEY, "b", 1, 1, FERRETGOLD_LOW, NULL, &other), 0);
    EXPECT(other.index == handle.index && other.client == handle.client, true);
    EXPECT(other.serial, handle.serial);
    no_handle(it, other);
    no_handle(foreign, handle);
    EXPECT(ferretgold_release(foreign, other, false, true, NULL), 0);
    EXPECT(ferretgold_release(it, handle, false, true, NULL), 0);
    EXPECT(ferretgold_client_close(cache, foreign), 37);
    EXPECT(ferretgold_client_close(second, it), 37);
    EXPECT(ferretgold_client_close_releasing(cache, foreign), 37);
    EXPECT(ferretgold_client_close(second, foreign), 0);
    EXPECT(ferretgold_close(second, NULL), 0);
}

/* A client that goes back with handles, one of them on an erased and one on a standalone entry. */
static void outlived(ferretgold_cache *cache, ferretgold_client *it, ferretgold_client *other) {
    ferretgold_handle handle[4];
    ferretgold_client *again = NULL;
    ferretgold_inserted inserted = FERRETGOLD_PLACED;
    uint64_t pinned = 5;
    EXPECT(ferretgold_insert_pinned(it, &KEY, "a", 1, 1, FERRETGOLD_LOW, NULL, &handle[0]), 0);
    EXPECT(ferretgold_erase(other, &KEY, NULL), 0);
    EXPECT(ferretgold_insert_pinned(it, &OTHER, "a", 1, 2, FERRETGOLD_LOW, NULL, &handle[1]), 0);
    EXPECT(ferretgold_insert_pinned(it, &OTHER, "b", 1, 4, FERRETGOLD_LOW, &inserted, &handle[2]),
           0);
    EXPECT(inserted, FERRETGOLD_STANDALONE);
    EXPECT(ferretgold_reref(it, handle[2], &handle[3]), 0);
    EXPECT(ferretgold_release(it, handle[0], false, false, NULL), 0);
    EXPECT(ferretgold_client_close(cache, it), 38);
    EXPECT(ferretgold_held(it), 3);
    EXPECT(ferretgold_client_close_releasing(cache, it), 0);
    for (int k = 0; k < 4; k++) {
        idle(cache, it, handle[k]);
    }
    EXPECT(ferretgold_pinned_usage(other, &pinned), 0);
    EXPECT(pinned, 0);
    EXPECT(ferretgold_client_open(cache, &again), 0);
    EXPECT(again == it, true);
    for (int k = 0; k < 4; k++) {
        no_handle(it, handle[k]);
    }
    EXPECT(ferretgold_client_open(cache, &again), 36);
    EXPECT(again == it, true);
    EXPECT(ferretgold_erase(it, &OTHER, NULL), 0);
}

/* More clients than a word has bits: each goes out once. Those that are spent go out last, and the
 * only one that is idle goes out wherever the last one was. */
static void many_clients(void) {
    enum { MANY = 130 };
    ferretgold_config many = SMALL;
    ferretgold_cache *cache = NULL;
    ferretgold_client *client[MANY], *more = NULL;
    bool seen[MANY] = {false};
    many.clients = MANY, many.serials = 1;
    EXPECT(ferretgold_open(&many, &cache), 0);
    for (int k = 0; k < MANY; k++) {
        EXPECT(ferretgold_client_open(cache, &client[k]), 0);
        EXPECT(seen[ferretgold_client_number(client[k])], false);
        seen[ferretgold_client_number(client[k])] = true;
    }
    EXPECT(ferretgold_client_open(cache, &more), 36);
    for (int k = 0; k < MANY; k++) {
        const uint32_t number = ferretgold_client_number(client[k]);
        if (number % 64 != 63 && number != 129) {
            EXPECT(ferretgold_insert(client[k], &KEY, "", 0, 1, FERRETGOLD_LOW, NULL), 0);
        }
    }
    for (int k = 0; k < MANY; k++) {
        EXPECT(ferretgold_client_close(cache, client[k]), 0);
    }
    for (int k = 0; k < MANY; k++) {
        EXPECT(ferretgold_client_open(cache, &client[k]), 0);
        EXPECT(ferretgold_serials_left(client[k]), k < 3);
        EXPECT(ferretgold_close(cache, NULL), 39);
    }
    EXPECT(ferretgold_client_open(cache, &more), 36);
    EXPECT(more == NULL, true);
    for (int k = 0; k < MANY; k++) {
        ferretgold_client *only = client[67 * k % MANY];
        EXPECT(ferretgold_client_close(cache, only), 0);
        EXPECT(ferretgold_client_open(cache, &more), 0);
        EXPECT(more == only, true);
    }
    for (int k = MANY - 1; k >= 0; k--) {
        EXPECT(ferretgold_close(cache, NULL), 39);
        EXPECT(ferretgold_client_close(cache, client[k]), 0);
    }
    EXPECT(ferretgold_close(cache, NULL), 0);
}

/* A client that a thread gives back and takes again is the same, with what it has left. */
static void taken_again(ferretgold_cache *cache) {
    ferretgold_client *first = NULL, *second = NULL;
    EXPECT(ferretgold_client_open(cache, &first), 0);
    const uint64_t left = ferretgold_serials_left(first) - 1;
    EXPECT(ferretgold_insert(first, &KEY, "", 0, 1, FERRETGOLD_LOW, NULL), 0);
    EXPECT(ferretgold_client_close(cache, first), 0);
    EXPECT(ferretgold_client_open(cache, &second), 0);
    EXPECT(first == second && ferretgold_serials_left(second) == left, true);
    EXPECT(ferretgold_erase(second, &KEY, NULL), 0);
    EXPECT(ferretgold_client_close(cache, second), 0);
}

void edges(void) {
    ferretgold_cache *cache = NULL;
    ferretgold_client *client[2] = {NULL, NULL};
    ferretgold_totals left = {1, 2, 3, 4};
    where = "edges";
    first_handles();
    texts();
    configurations();
    opened();
    sizes();
    memory();
    no_memory(8);
    no_memory(65536);
    no_copy();
    initialiser();
    EXPECT(ferretgold_open(&SMALL, &cache), 0);
    EXPECT(ferretgold_client_open(cache, &client[0]), 0);
    two_caches(cache, client[0]);
    EXPECT(ferretgold_client_close(cache, client[0]), 0);
    idle(cache, client[0], (ferretgold_handle){0, 0, 0, 0});
    nulls(client[0]);
    taken_again(cache);
    EXPECT(ferretgold_client_open(cache, &client[0]), 0);
    EXPECT(ferretgold_client_open(cache, &client[1]), 0);
    nulls_of_cache(cache, client[0]);
    nulls(client[0]);
    refusals(client[0], client[1]);
    outlived(cache, client[0], client[1]);
    many_clients();
    EXPECT(ferretgold_close(cache, &left), 39);
    EXPECT(left.slot_count, 4);
    EXPECT(ferretgold_client_close(cache, client[0]), 0);
    EXPECT(ferretgold_client_close(cache, client[1]), 0);
    EXPECT(ferretgold_close(cache, &left), 0);
    EXPECT(left.usage + left.occupied + left.slot_charges + left.slot_count, 0);
}
