/* Caches that begin with entries: what comes in and what is left out, what clients have then, and what
 * the calls of ferretgold_image.h refuse, requests for memory among it. */
#include "ferretgold_closed.h"
#include "ferretgold_image.h"
#include "expect.h"
#include "heap.h"

#include <stdint.h>
#include <string.h>

enum { SHARDS = 2, SLOTS = 8, ROOM = 16, CLIENTS = 3, MOST_USES = 553651204 };

static const ferretgold_config SMALL = {.slots = SLOTS, .room = 2, .clients = CLIENTS, .handles = 8,
                                        .shards = SHARDS, .capacity = 600,
                                        .serials = FERRETGOLD_MOST_SERIALS, .seed = 1};

/* Entries, two of one key, and with how many uses a cache begins with them; those that fit none. */
static const struct row {
    ferretgold_key key;
    const char *value;
    uint32_t charge, uses, begun;
    bool fits;
} rows[] = {{{1, 2}, "", 1, 0, 0, true},
            {{1, 3}, "a", 2, 1, 1, true},
            {{7, 7}, "no charge", 0, 3, 3, false},
            {{UINT64_MAX, 0}, "sixteen bytes it", UINT32_MAX, MOST_USES, MOST_USES, true},
            {{6, 6}, "seventeen bytes i", 4, 2, 2, false},
            {{5, UINT64_MAX}, "eight by", 5, UINT32_MAX, MOST_USES, true},
            {{0x0123456789abcdef, 0x13579bdf02468ace}, "mixed", 0x12345678, 0x1a2b3c4d, 0x1a2b3c4d, true},
            {{1, 3}, "b", 3, 5, 5, true}};
enum { ROWS = sizeof rows / sizeof *rows, FITTING = ROWS - 2 };

static ferretgold_status add(ferretgold_image *image, const struct row *row) {
    return ferretgold_image_add(image, &row->key, row->value, strlen(row->value), row->charge,
                                row->uses);
}

/* An image of all rows. */
static ferretgold_image *listed(void) {
    ferretgold_image *image = NULL;
    EXPECT(ferretgold_image_open(&image), 0);
    for (const struct row *row = rows; row < rows + ROWS; row++) {
        EXPECT(add(image, row), 0);
    }
    return image;
}

/* ---- What a cache has ------------------------------------------------------------------------ */

/* Whether a slot's entry is a row's, with its value. */
static bool is_row(ferretgold_closed *closed, uint32_t shard, uint32_t slot,
                   const ferretgold_entry *entry, const struct row *row) {
    char bytes[ROOM];
    return entry->key.w0 == row->key.w0 && entry->key.w1 == row->key.w1
           && entry->length == strlen(row->value) && entry->charge == row->charge
           && entry->uses == row->begun && entry->visible && !entry->hit
           && ferretgold_closed_value(closed, shard, slot, bytes, ROOM, NULL) == FERRETGOLD_OK
           && memcmp(bytes, row->value, entry->length) == 0;
}

/* Ends a cache that has each row that fits once, and nothing else: how many the shard with most has. */
static uint32_t ended(ferretgold_cache *cache) {
    uint32_t count = 0, most = 0, found[ROWS] = {0};
    ferretgold_closed *closed = NULL;
    EXPECT(ferretgold_close_keeping(cache, &closed), 0);
    for (uint32_t shard = 0; shard < SHARDS; shard++) {
        uint32_t here = 0;
        for (uint32_t slot = 0; slot < SLOTS; slot++) {
            ferretgold_entry entry;
            const bool has = ferretgold_closed_entry(closed, shard, slot, &entry) == FERRETGOLD_OK;
            here += has;
            for (uint32_t k = 0; has && k < ROWS; k++) {
                found[k] += is_row(closed, shard, slot, &entry, &rows[k]);
            }
        }
        count += here;
        most = here > most ? here : most;
    }
    for (uint32_t k = 0; k < ROWS; k++) {
        EXPECT(found[k], rows[k].fits);
    }
    EXPECT(count, FITTING);
    ferretgold_closed_free(closed);
    return most;
}

/* All rows that fit are there and found; the first client made them, and no count began. */
static void begins(void) {
    ferretgold_cache *cache = NULL;
    ferretgold_client *clients[CLIENTS] = {NULL};
    ferretgold_counts counts;
    uint64_t used = 0;
    size_t left_out = 77;
    EXPECT(ferretgold_reopen(&SMALL, listed(), &cache, &left_out), 0);
    EXPECT(left_out, ROWS - FITTING);
    EXPECT(ferretgold_cache_counts(cache, &counts), 0);
    EXPECT(counts.placed + counts.hits + counts.misses, 0);
    for (uint32_t k = 0; k < CLIENTS; k++) {
        EXPECT(ferretgold_client_open(cache, &clients[k]), 0);
        const uint64_t left = ferretgold_serials_left(clients[k]);
        used = ferretgold_client_number(clients[k]) == 0 ? FERRETGOLD_MOST_SERIALS - left : used;
        EXPECT(left == FERRETGOLD_MOST_SERIALS || ferretgold_client_number(clients[k]) == 0, true);
    }
    for (uint32_t k = 0; k < ROWS; k++) {
        char bytes[ROOM];
        if (rows[k].begun < MOST_USES) { /* else a look-up would correct the counters */
            EXPECT(ferretgold_get(clients[k % CLIENTS], &rows[k].key, bytes, ROOM, false, NULL),
                   !rows[k].fits);
        }
    }
    for (uint32_t k = 0; k < CLIENTS; k++) {
        EXPECT(ferretgold_client_close(cache, clients[k]), 0);
    }
    EXPECT(ended(cache), used);
}

/* Opens a cache of one shard that begins with entries of these charges and keys by their places: which
 * of them it has, a bit for each. */
static uint32_t taken(const ferretgold_config *config, const uint32_t *charges, uint32_t count) {
    ferretgold_image *image = NULL;
    ferretgold_cache *cache = NULL;
    ferretgold_client *client = NULL;
    uint32_t found = 0, misses = 0;
    size_t left_out = 77;
    EXPECT(ferretgold_image_open(&image), 0);
    for (uint64_t k = 0; k < count; k++) {
        const ferretgold_key key = {k, 7 * k};
        EXPECT(ferretgold_image_add(image, &key, NULL, 0, charges[k], 1), 0);
    }
    EXPECT(ferretgold_reopen(config, image, &cache, &left_out), 0);
    EXPECT(ferretgold_client_open(cache, &client), 0);
    for (uint64_t k = 0; k < count; k++) {
        const ferretgold_key key = {k, 7 * k};
        const bool hit = ferretgold_get(client, &key, NULL, 0, false, NULL) == FERRETGOLD_OK;
        found |= (uint32_t)hit << k;
        misses += !hit;
    }
    EXPECT(left_out, misses);
    EXPECT(ferretgold_client_close(cache, client), 0);
    EXPECT(ferretgold_close(cache, NULL), 0);
    return found;
}

/* The first come in, as far as there are places, and room for their charges where capacity is strict. */
static void in_order(void) {
    const uint32_t charges[] = {4, 7, 5, 1, 1, 0, 2, 1, 1, 1};
    enum { COUNT = sizeof charges / sizeof *charges };
    ferretgold_config config = SMALL;
    config.shards = 1;
    config.capacity = 10;
    EXPECT(taken(&config, charges, COUNT), 0x5f);
    config.strict = true;
    EXPECT(taken(&config, charges, COUNT), 0xd);
    config.capacity = 30;
    EXPECT(taken(&config, charges, COUNT), 0x5f);
    config.slots = 2 * SLOTS;
    EXPECT(taken(&config, charges, COUNT), 0x3df);
}

/* ---- What is refused ------------------------------------------------------------------------- */

/* Null pointers and configurations: the image is gone where there is one, and the outputs stay. */
static void refusals(void) {
    const ferretgold_key key = {1, 1};
    const size_t blocks = heap_blocks;
    ferretgold_config config = SMALL;
    ferretgold_image *image = listed();
    ferretgold_cache *cache = NULL;
    size_t left_out = 77;
    EXPECT(ferretgold_image_open(NULL), 16);
    EXPECT(ferretgold_image_add(NULL, &key, "", 0, 1, 1), 16);
    EXPECT(ferretgold_image_add(image, NULL, "", 0, 1, 1), 16);
    EXPECT(ferretgold_image_add(image, &key, NULL, 1, 1, 1), 16);
    ferretgold_image_free(image);
    ferretgold_image_free(NULL);
    EXPECT(ferretgold_reopen(&config, NULL, &cache, &left_out), 16);
    EXPECT(ferretgold_reopen(NULL, listed(), &cache, &left_out), 16);
    EXPECT(ferretgold_reopen(&config, listed(), NULL, &left_out), 16);
    config.slots = 33;
    EXPECT(ferretgold_reopen(&config, listed(), &cache, &left_out), 29);
    config.size = 1;
    EXPECT(ferretgold_reopen(&config, listed(), &cache, &left_out), 40);
    EXPECT(heap_blocks, blocks);
    EXPECT(cache == NULL && left_out == 77, true);
}

/* An entry for which memory is refused isn't added, and the others stay. */
static ferretgold_image *listed_at_last(void) {
    ferretgold_image *image = NULL;
    heap_left = 0;
    EXPECT(ferretgold_image_open(&image), 28);
    EXPECT(image == NULL, true);
    heap_left = SIZE_MAX;
    EXPECT(ferretgold_image_open(&image), 0);
    for (const struct row *row = rows; row < rows + ROWS; row++) {
        const size_t blocks = heap_blocks;
        ferretgold_status status = FERRETGOLD_OUT_OF_MEMORY;
        for (size_t met = 0; status == FERRETGOLD_OUT_OF_MEMORY; met++) {
            EXPECT(heap_blocks, blocks);
            heap_left = met;
            status = add(image, row);
        }
        EXPECT(status, 0);
    }
    heap_left = SIZE_MAX;
    return image;
}

/* A handle on the entry of the first row, by a client that is given back. */
static ferretgold_handle held_in(ferretgold_cache *cache) {
    ferretgold_client *client = NULL;
    ferretgold_handle handle = {0};
    EXPECT(ferretgold_client_open(cache, &client), 0);
    EXPECT(ferretgold_lookup(client, &rows[0].key, &handle), 0);
    EXPECT(ferretgold_release(client, handle, false, false, NULL), 0);
    EXPECT(ferretgold_client_close(cache, client), 0);
    return handle;
}

/* Two caches have two numbers: here that of one is how many clients the other has. */
static void numbers(void) {
    ferretgold_cache *cache = NULL, *other = NULL;
    ferretgold_config config = SMALL;
    EXPECT(ferretgold_reopen(&config, listed(), &cache, NULL), 0);
    config.clients = held_in(cache).cache;
    EXPECT(ferretgold_reopen(&config, listed(), &other, NULL), 0);
    EXPECT(held_in(other).cache != config.clients, true);
    (void)ended(other);
    (void)ended(cache);
}

/* Where memory is refused for opening, nothing remains. */
static void refused_memory(void) {
    const size_t blocks = heap_blocks;
    ferretgold_cache *cache = NULL;
    size_t left_out = 77;
    for (size_t met = 0; cache == NULL; met++) {
        ferretgold_image *image = listed_at_last();
        heap_left = met;
        const ferretgold_status status = ferretgold_reopen(&SMALL, image, &cache, &left_out);
        heap_left = SIZE_MAX;
        EXPECT(status, cache == NULL ? 28 : 0);
        EXPECT(cache != NULL || (heap_blocks == blocks && left_out == 77), true);
    }
    EXPECT(left_out, ROWS - FITTING);
    (void)ended(cache);
    EXPECT(ferretgold_reopen(&SMALL, listed(), &cache, NULL), 0);
    (void)ended(cache);
    EXPECT(heap_blocks, blocks);
}

/* A value takes its bytes, and no more. */
static void bytes(void) {
    ferretgold_image *image = NULL;
    size_t least = SIZE_MAX; /* some additions take a longer list, too */
    EXPECT(ferretgold_image_open(&image), 0);
    for (int k = 0; k < 10; k++) {
        const size_t was = heap_bytes;
        EXPECT(ferretgold_image_add(image, &rows[0].key, "sixteen bytes it", 16, 1, 1), 0);
        least = heap_bytes - was < least ? heap_bytes - was : least;
    }
    EXPECT(least, 16);
    ferretgold_image_free(image);
}

void images(void) {
    where = "images";
    begins();
    in_order();
    refusals();
    numbers();
    refused_memory();
    bytes();
}
