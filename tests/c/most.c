/* A shard of the most slots with the most room, which begins with more entries than two bytes with a sign count
 * and is filled up to its last place; and a list that is much longer than a cache. Linked with heap.c. */
enum { MOST_FILE = 1 };

#include "ferretgold_closed.h"
#include "ferretgold_image.h"
#include "file_image.h"
#include "heap.h"

enum { SLOTS = 65536, ROOM = 512, LISTED = 40000, PLACES = SLOTS * 84 / 100, LEFT_OUT = 70000 };

/* Entry `number`, of which all is known by its key: charges and uses of up to four bytes, and values of all
 * lengths, also the longest. */
static ferretgold_key key_of(uint64_t number) {
    return (ferretgold_key){number, number * number};
}

static uint32_t charge_of(uint64_t number) {
    return (uint32_t)(1 + number * 600);
}

static uint32_t uses_of(uint64_t number) {
    return number < LISTED ? (uint32_t)(1 + number * 9973) : 3;
}

static size_t value_of(uint64_t number, uint8_t *value) {
    const size_t length = number % 7 == 0 ? 8 * ROOM - number % 21 : number % 20;
    for (size_t at = 0; at < length; at++) {
        value[at] = (uint8_t)(number * 41 + at * at);
    }
    return length;
}

static ferretgold_config config_of(uint32_t slots, uint32_t room) {
    return (ferretgold_config){.slots = slots, .room = room, .clients = 1, .handles = 1, .shards = 1,
                               .capacity = UINT64_C(1) << 40, .serials = FERRETGOLD_MOST_SERIALS,
                               .seed = 5};
}

/* A cache that begins with so many entries, and leaves out some of them. */
static ferretgold_cache *begun(const ferretgold_config *config, uint64_t entries, size_t left_out) {
    static uint8_t value[8 * ROOM];
    ferretgold_image *image = NULL;
    ferretgold_cache *cache = NULL;
    size_t is = 77;
    EXPECT(ferretgold_image_open(&image), 0);
    for (uint64_t number = 0; number < entries; number++) {
        const ferretgold_key key = key_of(number);
        const size_t length = config->room == ROOM ? value_of(number, value) : 0;
        EXPECT(ferretgold_image_add(image, &key, value, length, charge_of(number), uses_of(number)), 0);
    }
    EXPECT(ferretgold_reopen(config, image, &cache, &is), 0);
    EXPECT(is, left_out);
    return cache;
}

/* Fills it up, and reads all of it. */
static void fill(ferretgold_cache *cache) {
    static uint8_t value[8 * ROOM], buffer[8 * ROOM];
    ferretgold_client *client = NULL;
    uint64_t occupancy = 0;
    EXPECT(ferretgold_client_open(cache, &client), 0);
    EXPECT(FERRETGOLD_MOST_SERIALS - ferretgold_serials_left(client), LISTED);
    for (uint64_t number = LISTED; number < PLACES; number++) {
        const ferretgold_key key = key_of(number);
        ferretgold_inserted came = FERRETGOLD_DROPPED;
        EXPECT(ferretgold_insert(client, &key, value, value_of(number, value), charge_of(number),
                                 FERRETGOLD_HIGH, &came), 0);
        EXPECT(came, FERRETGOLD_PLACED);
    }
    EXPECT(ferretgold_occupancy(client, &occupancy), 0);
    EXPECT(occupancy, PLACES);
    for (uint64_t number = 0; number < PLACES; number++) {
        const ferretgold_key key = key_of(number);
        size_t length = 0;
        EXPECT(ferretgold_get(client, &key, buffer, sizeof buffer, false, &length), 0);
        EXPECT(length, value_of(number, value));
        EXPECT(memcmp(buffer, value, length), 0);
    }
    EXPECT(ferretgold_client_close(cache, client), 0);
}

/* What is left of it: each entry once. */
static void are_left(ferretgold_cache *cache) {
    static bool seen[PLACES];
    ferretgold_closed *closed = NULL;
    ferretgold_entry entry;
    uint64_t count = 0;
    EXPECT(ferretgold_close_keeping(cache, &closed), 0);
    for (uint32_t slot = 0; slot < SLOTS; slot++) {
        if (ferretgold_closed_entry(closed, 0, slot, &entry) == FERRETGOLD_OK) {
            const uint64_t number = entry.key.w0;
            EXPECT(number < PLACES && entry.key.w1 == number * number && !seen[number], true);
            EXPECT(entry.charge, charge_of(number));
            EXPECT(entry.uses, uses_of(number));
            seen[number] = true;
            count++;
        }
    }
    EXPECT(count, PLACES);
    ferretgold_closed_free(closed);
}

int main(void) {
    const ferretgold_config most = config_of(SLOTS, ROOM), least = config_of(8, 1);
    ferretgold_cache *cache = begun(&most, LISTED, 0);
    EXPECT(heap_bytes, ferretgold_memory(&most));
    fill(cache);
    are_left(cache);
    EXPECT(ferretgold_close(begun(&least, LEFT_OUT, LEFT_OUT - 6), NULL), 0);
    EXPECT(heap_blocks, 0);
    return faults != 0;
}
