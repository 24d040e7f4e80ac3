/* Caches that are saved and loaded: rows, damage of every byte and every length, files whose checksums are
 * right and which no save writes, requests for memory and calls of the caller's that fail, and mutated
 * files.
 * Usage: file rows | file fuzz COUNT SEED | file save PATH | file load PATH */
enum { MOST_FILE = 1 << 14 };

#include "ferretgold_file.h"
#include "file_image.h"
#include "heap.h"

#define XXH_INLINE_ALL
#include <xxhash.h>

#include <inttypes.h>

enum { ENTRIES = 20, LONGEST = 48, MOST_VALUE = 4096, MANY = 70000, ENOUGH = 200 /* calls or requests */ };

/* ---- Entries --------------------------------------------------------------------------------- */

/* Entry `number`, of which all is known by its key. */
static ferretgold_key key_of(uint64_t number) {
    return (ferretgold_key){number, number * number};
}

static uint32_t length_of(uint64_t number) {
    return (uint32_t)(number * 7 % (LONGEST + 1));
}

static void value_of(uint64_t number, uint8_t *value) {
    for (uint32_t at = 0; at < length_of(number); at++) {
        value[at] = (uint8_t)(number * 41 + at);
    }
}

static ferretgold_config config_of(uint32_t shards, uint32_t slots, uint32_t room, uint64_t capacity,
                                   uint64_t seed) {
    return (ferretgold_config){.slots = slots, .room = room, .clients = 2, .handles = 4,
                               .shards = shards, .capacity = capacity,
                               .serials = FERRETGOLD_MOST_SERIALS, .seed = seed};
}

/* Its countdown when it is saved: by its priority, and every fifth was used twice, by a handle, which
 * counts a use beyond three, too. */
static uint32_t uses_of(uint64_t number) {
    return (uint32_t)(3 - number % 3 + (number % 5 == 4 ? 2 : 0));
}

static void insert(ferretgold_client *client, uint64_t number) {
    const ferretgold_key key = key_of(number);
    uint8_t value[LONGEST];
    value_of(number, value);
    EXPECT(ferretgold_insert(client, &key, value, length_of(number), (uint32_t)number + 1,
                             (ferretgold_priority)(number % 3), NULL), FERRETGOLD_OK);
    for (int use = 0; use < 2 && number % 5 == 4; use++) {
        ferretgold_handle used;
        EXPECT(ferretgold_lookup(client, &key, &used), FERRETGOLD_OK);
        EXPECT(ferretgold_release(client, used, true, false, NULL), FERRETGOLD_OK);
    }
}

/* Leaves bytes on the stack, so that what a call doesn't set isn't 0. */
static void soil_stack(void) {
    volatile uint8_t bytes[1 << 14];
    for (size_t at = 0; at < sizeof bytes; at++) {
        bytes[at] = 0xa5;
    }
}

/* Saves a cache with all entries but the fourth, which was inserted and erased. */
static ferretgold_file_status save(image *to, size_t calls) {
    const ferretgold_config config = config_of(2, 32, 6, 1000, 5);
    const ferretgold_key fourth = key_of(3);
    ferretgold_cache *cache;
    ferretgold_client *client;
    ferretgold_closed *closed;
    EXPECT(ferretgold_open(&config, &cache), FERRETGOLD_OK);
    EXPECT(ferretgold_client_open(cache, &client), FERRETGOLD_OK);
    for (uint64_t number = 0; number < ENTRIES; number++) {
        insert(client, number);
    }
    EXPECT(ferretgold_erase(client, &fourth, NULL), FERRETGOLD_OK);
    EXPECT(ferretgold_client_close(cache, client), FERRETGOLD_OK);
    EXPECT(ferretgold_close_keeping(cache, &closed), FERRETGOLD_OK);
    empty_image(to);
    to->calls_left = calls;
    soil_stack();
    const ferretgold_file_status status = ferretgold_save(closed, write_image, to);
    EXPECT(ferretgold_save(closed, NULL, to), FERRETGOLD_FILE_NULL);
    ferretgold_closed_free(closed);
    return status;
}

static ferretgold_file_status load(image *from, const ferretgold_config *config, bool keep_front,
                                   ferretgold_cache **cache, ferretgold_loaded *loaded) {
    begin_image(from);
    return ferretgold_load(config, read_image, from, keep_front, cache, loaded);
}

/* Whether an entry is one that was saved, with its value, its charge and its uses. */
static bool is_whole(ferretgold_closed *closed, uint32_t shard, uint32_t slot, const ferretgold_entry *it) {
    const uint64_t number = it->key.w0;
    uint8_t value[LONGEST], buffer[LONGEST];
    value_of(number, value);
    return number < ENTRIES && number != 3 && it->key.w1 == number * number && it->visible
           && it->charge == number + 1 && it->length == length_of(number)
           && it->uses == uses_of(number)
           && ferretgold_closed_value(closed, shard, slot, buffer, sizeof buffer, NULL) == FERRETGOLD_OK
           && memcmp(buffer, value, it->length) == 0;
}

/* Closes a cache: how many entries it had, each whole and no two of one key. */
static uint64_t whole(ferretgold_cache *cache) {
    ferretgold_config config;
    ferretgold_closed *closed;
    ferretgold_entry entry;
    uint64_t found = 0, seen = 0;
    EXPECT(cache != NULL, true);
    if (ferretgold_close_keeping(cache, &closed) != FERRETGOLD_OK) {
        return 0;
    }
    EXPECT(ferretgold_closed_config(closed, &config), FERRETGOLD_OK);
    for (uint32_t place = 0; place < config.shards * config.slots; place++) {
        const uint32_t shard = place / config.slots, slot = place % config.slots;
        if (ferretgold_closed_entry(closed, shard, slot, &entry) == FERRETGOLD_OK) {
            EXPECT(is_whole(closed, shard, slot, &entry), true);
            EXPECT(seen >> entry.key.w0 % 64 & 1, 0);
            seen |= UINT64_C(1) << entry.key.w0 % 64;
            found++;
        }
    }
    ferretgold_closed_free(closed);
    return found;
}

/* ---- Rows ------------------------------------------------------------------------------------ */

/* A file is loaded whole where there is room, by any seed, shards and slots, and else in part. */
static void into_others(image *file) {
    static const struct {
        const char *name;
        uint32_t shards, slots, room;
        uint64_t capacity, seed, left;
    } rows[] = {
        {"as it was: ", 2, 32, 6, 1000, 5, ENTRIES - 1},
        {"a seed that is drawn: ", 2, 32, 6, 1000, 0, ENTRIES - 1},
        {"another seed: ", 2, 32, 6, 1000, 1, ENTRIES - 1},
        {"no seed: ", 2, 32, 6, 1000, FERRETGOLD_UNSEEDED, ENTRIES - 1},
        {"more shards: ", 8, 16, 6, 1000, 77, ENTRIES - 1},
        {"one shard: ", 1, 64, 512, 1000, 5, ENTRIES - 1},
        {"values above 8 bytes don't fit: ", 2, 32, 1, 1000, 5, 6},
    };
    for (size_t at = 0; at < sizeof rows / sizeof *rows; at++) {
        const ferretgold_config config = config_of(rows[at].shards, rows[at].slots, rows[at].room,
                                                   rows[at].capacity, rows[at].seed);
        ferretgold_loaded loaded = {0};
        ferretgold_cache *cache = NULL;
        where = rows[at].name;
        EXPECT(load(file, &config, false, &cache, &loaded), FERRETGOLD_FILE_OK);
        EXPECT(loaded.entries, ENTRIES - 1);
        EXPECT(loaded.left, rows[at].left);
        EXPECT(loaded.lost, ENTRIES - 1 - rows[at].left);
        EXPECT(whole(cache), rows[at].left);
    }
    where = "";
}

/* Where they are too many as many come in as there are places. */
static void into_less(image *file) {
    const ferretgold_config config = config_of(1, 8, 6, 40, 5);
    ferretgold_loaded loaded = {0};
    ferretgold_cache *cache = NULL;
    EXPECT(load(file, &config, false, &cache, &loaded), FERRETGOLD_FILE_OK);
    EXPECT(loaded.entries, ENTRIES - 1);
    EXPECT(loaded.left, 6);
    EXPECT(loaded.lost, ENTRIES - 1 - 6);
    EXPECT(whole(cache), loaded.left);
}

/* No changed byte is taken, and no shorter or longer file, and nothing is left of one; with `keep_front`
 * what stands before is taken. */
static void damaged(image *file) {
    const ferretgold_config config = config_of(2, 32, 6, 1000, 5);
    ferretgold_cache *cache = NULL;
    ferretgold_loaded loaded;
    const size_t length = file->length, blocks = heap_blocks;
    for (size_t at = 0; at < 8 * length; at++) {
        file->bytes[at / 8] ^= (uint8_t)(1 << at % 8);
        const ferretgold_file_status status = load(file, &config, false, &cache, &loaded);
        EXPECT(status, at < 64 ? FERRETGOLD_FILE_KIND : FERRETGOLD_FILE_DAMAGED);
        EXPECT(cache == NULL, true);
        if (at >= 64 && at % 8 == 0) {
            EXPECT(load(file, &config, true, &cache, &loaded), FERRETGOLD_FILE_DAMAGED);
            EXPECT(loaded.lost, 0);
            EXPECT(at >= 256 || loaded.entries == 0, true);
            EXPECT(whole(cache), loaded.left);
            cache = NULL;
        }
        EXPECT(heap_blocks, blocks);
        file->bytes[at / 8] ^= (uint8_t)(1 << at % 8);
    }
    for (file->length = 0; file->length < length + 2; file->length++) {
        const ferretgold_file_status status = load(file, &config, false, &cache, &loaded);
        if (file->length == length) {
            EXPECT(status, FERRETGOLD_FILE_OK);
            EXPECT(whole(cache), ENTRIES - 1);
            cache = NULL;
        } else {
            EXPECT(status, file->length < 8 ? FERRETGOLD_FILE_KIND : FERRETGOLD_FILE_DAMAGED);
            EXPECT(cache == NULL, true);
        }
    }
    file->length = length;
}

/* The file's fields, also those that are 0. */
static void as_described(const image *file) {
    size_t at = BEGIN;
    EXPECT(memcmp(file->bytes, "FERRETG1", 8), 0);
    EXPECT(number_at(file->bytes + 8, 4), 1);
    EXPECT(number_at(file->bytes + 12, 4), 0);
    EXPECT(number_at(file->bytes + 16, 8), ENTRIES - 1);
    EXPECT(number_at(file->bytes + 24, 8), XXH64(file->bytes, 24, 0));
    for (uint64_t entry = 1; entry < ENTRIES; entry++) {
        const uint8_t *head = file->bytes + at;
        const uint64_t number = number_at(head, 8);
        EXPECT(number_at(head + 8, 8), number * number);
        EXPECT(number_at(head + 16, 4), number + 1);
        EXPECT(number_at(head + 20, 4), uses_of(number));
        EXPECT(number_at(head + 24, 4), length_of(number));
        EXPECT(number_at(head + 28, 4), 0);
        at += HEAD + length_of(number);
    }
    EXPECT(file->length, at);
}

/* Makes the first entry's checksum right, as far as its bytes are there. */
static void seal(image *file) {
    uint8_t *head = file->bytes + BEGIN;
    const uint64_t length = number_at(head + 24, 4), most = MOST_FILE - BEGIN - HEAD;
    XXH64_state_t state;
    (void)XXH64_reset(&state, 1);
    (void)XXH64_update(&state, head, HEAD - 8);
    (void)XXH64_update(&state, head + HEAD, length < most ? length : most);
    set_number(head + HEAD - 8, 8, XXH64_digest(&state));
}

/* A value of as many bytes as a slot has at most, and numbers that would fit no shorter field: as they are
 * loaded, they are saved again. */
static void longest(void) {
    static image file, again;
    static uint8_t value[MOST_VALUE], buffer[MOST_VALUE];
    const ferretgold_config config = config_of(1, 8, MOST_VALUE / 8, UINT64_C(1) << 34, 5);
    const ferretgold_key key = {UINT64_C(0xfedcba9876543210), UINT64_C(0x0f1e2d3c4b5a6978)};
    const uint32_t charge = 0x12345678, uses = 0x1a2b3c4d;
    ferretgold_entry entry = {0};
    ferretgold_cache *cache;
    ferretgold_client *client;
    ferretgold_closed *closed;
    for (size_t at = 0; at < MOST_VALUE; at++) {
        value[at] = (uint8_t)(at * at >> 5);
    }
    EXPECT(ferretgold_open(&config, &cache), FERRETGOLD_OK);
    EXPECT(ferretgold_client_open(cache, &client), FERRETGOLD_OK);
    EXPECT(ferretgold_insert(client, &key, value, MOST_VALUE, charge, FERRETGOLD_LOW, NULL), FERRETGOLD_OK);
    EXPECT(ferretgold_client_close(cache, client), FERRETGOLD_OK);
    EXPECT(ferretgold_close_keeping(cache, &closed), FERRETGOLD_OK);
    file.calls_left = SIZE_MAX;
    EXPECT(ferretgold_save(closed, write_image, &file), FERRETGOLD_FILE_OK);
    ferretgold_closed_free(closed);
    EXPECT(load(&file, &config, false, &cache, NULL), FERRETGOLD_FILE_OK);
    EXPECT(ferretgold_client_open(cache, &client), FERRETGOLD_OK);
    EXPECT(ferretgold_get(client, &key, buffer, MOST_VALUE, false, NULL), FERRETGOLD_OK);
    EXPECT(memcmp(buffer, value, MOST_VALUE), 0);
    EXPECT(ferretgold_client_close(cache, client), FERRETGOLD_OK);
    EXPECT(ferretgold_close(cache, NULL), FERRETGOLD_OK);
    EXPECT(number_at(file.bytes + BEGIN + 16, 4), charge);
    set_number(file.bytes + BEGIN + 20, 4, uses);
    seal(&file);
    EXPECT(load(&file, &config, false, &cache, NULL), FERRETGOLD_FILE_OK);
    EXPECT(ferretgold_close_keeping(cache, &closed), FERRETGOLD_OK);
    for (uint32_t slot = 0; slot < 8 && entry.charge == 0; slot++) {
        (void)ferretgold_closed_entry(closed, 0, slot, &entry);
    }
    EXPECT(entry.charge == charge && entry.uses == uses, true);
    EXPECT(entry.key.w0 == key.w0 && entry.key.w1 == key.w1, true);
    again.calls_left = SIZE_MAX;
    EXPECT(ferretgold_save(closed, write_image, &again), FERRETGOLD_FILE_OK);
    EXPECT(again.length == file.length && memcmp(again.bytes, file.bytes, file.length) == 0, true);
    ferretgold_closed_free(closed);
}

/* Looks at the checksum of the begin, or of the entry of this number. */
static bool look_at_sum(void *number, const void *bytes, size_t count) {
    const size_t at = *(uint64_t *)number == 0 ? BEGIN - 8 : HEAD - 8;
    EXPECT(count, at + 8);
    EXPECT(number_at((const uint8_t *)bytes + at, 8), XXH64(bytes, at, *(uint64_t *)number));
    EXPECT(*(uint64_t *)number != 0 || number_at((const uint8_t *)bytes + 16, 8) == MANY, true);
    *(uint64_t *)number += 1;
    return true;
}

/* More entries than two bytes count are saved, each under its number. */
static void numbered(void) {
    const ferretgold_config config = config_of(2, 1 << 16, 1, 2 * MANY, 5);
    ferretgold_cache *cache;
    ferretgold_client *client;
    ferretgold_closed *closed;
    uint64_t number = 0;
    EXPECT(ferretgold_open(&config, &cache), FERRETGOLD_OK);
    EXPECT(ferretgold_client_open(cache, &client), FERRETGOLD_OK);
    for (uint64_t it = 0; it < MANY; it++) {
        const ferretgold_key key = {it, it};
        EXPECT(ferretgold_insert(client, &key, NULL, 0, 1, FERRETGOLD_LOW, NULL), FERRETGOLD_OK);
    }
    EXPECT(ferretgold_client_close(cache, client), FERRETGOLD_OK);
    EXPECT(ferretgold_close_keeping(cache, &closed), FERRETGOLD_OK);
    EXPECT(ferretgold_save(closed, look_at_sum, &number), FERRETGOLD_FILE_OK);
    EXPECT(number, MANY + 1);
    ferretgold_closed_free(closed);
}

/* A longer file with one field changed and checksums that are right: with what status it is refused, and how
 * many entries it has until then. */
static ferretgold_file_status changed(const image *file, size_t at, size_t count, uint64_t number,
                                      uint64_t *entries) {
    static image other;
    const ferretgold_config config = config_of(2, 32, 6, 1000, 5);
    ferretgold_loaded loaded = {0};
    ferretgold_cache *cache = NULL;
    other = *file;
    other.length = MOST_FILE;
    set_number(other.bytes + at, count, number);
    seal(&other);
    set_number(other.bytes + BEGIN - 8, 8, XXH64(other.bytes, BEGIN - 8, 0));
    const ferretgold_file_status status = load(&other, &config, true, &cache, &loaded);
    EXPECT(cache != NULL, status == FERRETGOLD_FILE_DAMAGED);
    EXPECT(ferretgold_close(cache, NULL), cache == NULL ? FERRETGOLD_NULL : FERRETGOLD_OK);
    *entries = loaded.entries;
    return status;
}

/* Fields that no save writes, and one that it does. */
static void otherwise_sealed(const image *file) {
    static const struct {
        size_t at, count;
        uint64_t number;
        ferretgold_file_status status;
        uint64_t entries;
    } rows[] = {
        {8, 4, 0, FERRETGOLD_FILE_VERSION, 0},
        {8, 4, 1, FERRETGOLD_FILE_DAMAGED, ENTRIES - 1},
        {8, 4, 2, FERRETGOLD_FILE_VERSION, 0},
        {8, 4, 0x01000001, FERRETGOLD_FILE_VERSION, 0},
        {12, 4, 1, FERRETGOLD_FILE_DAMAGED, 0},
        {16, 8, 0, FERRETGOLD_FILE_DAMAGED, 0},
        {16, 8, ENTRIES - 2, FERRETGOLD_FILE_DAMAGED, ENTRIES - 2},
        {BEGIN + 16, 4, 0, FERRETGOLD_FILE_DAMAGED, 0},
        {BEGIN + 24, 4, MOST_VALUE, FERRETGOLD_FILE_DAMAGED, 1},
        {BEGIN + 24, 4, MOST_VALUE + 1, FERRETGOLD_FILE_DAMAGED, 0},
        {BEGIN + 24, 4, 3 * MOST_VALUE, FERRETGOLD_FILE_DAMAGED, 0},
        {BEGIN + 24, 4, UINT32_MAX, FERRETGOLD_FILE_DAMAGED, 0},
        {BEGIN + 28, 4, 1, FERRETGOLD_FILE_DAMAGED, 0},
        {16, 8, UINT64_MAX, FERRETGOLD_FILE_DAMAGED, ENTRIES - 1},
        {16, 8, (UINT64_C(1) << 32) + ENTRIES - 1, FERRETGOLD_FILE_DAMAGED, ENTRIES - 1},
    };
    for (size_t row = 0; row < sizeof rows / sizeof *rows; row++) {
        uint64_t entries = 77;
        EXPECT(changed(file, rows[row].at, rows[row].count, rows[row].number, &entries), rows[row].status);
        EXPECT(entries, rows[row].entries);
    }
}

/* Each call of the caller's that fails is told, and leaves nothing. */
static void failing(image *file) {
    const ferretgold_config config = config_of(2, 32, 6, 1000, 5);
    ferretgold_cache *cache = NULL;
    size_t calls = 0;
    image other;
    while (calls < ENOUGH && save(&other, calls) == FERRETGOLD_FILE_WRITE) {
        calls++;
    }
    EXPECT(calls, ENTRIES);
    for (calls = 0; calls < ENOUGH; calls++) {
        file->calls_left = calls;
        const ferretgold_file_status status = load(file, &config, true, &cache, NULL);
        if (status == FERRETGOLD_FILE_OK) {
            break;
        }
        EXPECT(status, FERRETGOLD_FILE_READ);
        EXPECT(cache == NULL, true);
    }
    EXPECT(whole(cache), ENTRIES - 1);
    file->calls_left = SIZE_MAX;
}

/* Each request for memory is refused in turn. */
static void without_memory(image *file, const ferretgold_config *config) {
    ferretgold_cache *cache = NULL;
    const size_t blocks = heap_blocks;
    for (size_t met = 0; cache == NULL && met < ENOUGH; met++) {
        heap_left = met;
        const ferretgold_file_status status = load(file, config, met % 2 == 0, &cache, NULL);
        EXPECT(status, cache == NULL ? FERRETGOLD_FILE_MEMORY : FERRETGOLD_FILE_OK);
        EXPECT(cache != NULL || heap_blocks == blocks, true);
    }
    heap_left = SIZE_MAX;
    EXPECT(whole(cache), ENTRIES - 1);
    EXPECT(heap_blocks, blocks);
}

/* Requests for memory that are refused, a configuration that is, and null pointers. */
static void refused(image *file) {
    ferretgold_config config = config_of(2, 32, 6, 1000, 5);
    ferretgold_cache *cache = NULL;
    for (heap_once = 0; heap_once < 2; heap_once++) {
        without_memory(file, &config);
    }
    config.seed = draws_left = 0;
    EXPECT(load(file, &config, false, &cache, NULL), FERRETGOLD_FILE_REFUSED);
    draws_left = -1;
    config.slots = 33;
    heap_left = 0;
    EXPECT(load(file, &config, false, &cache, NULL), FERRETGOLD_FILE_REFUSED);
    heap_left = SIZE_MAX;
    EXPECT(load(file, NULL, false, &cache, NULL), FERRETGOLD_FILE_NULL);
    EXPECT(load(file, &config, false, NULL, NULL), FERRETGOLD_FILE_NULL);
    EXPECT(ferretgold_load(&config, NULL, file, false, &cache, NULL), FERRETGOLD_FILE_NULL);
    EXPECT(ferretgold_save(NULL, write_image, file), FERRETGOLD_FILE_NULL);
    EXPECT(cache == NULL, true);
}

static void texts(void) {
    static const char *const all[] = {
        "ok", "a pointer is null", "writing failed", "reading failed", "it is no file of a cache",
        "the file has a version that the library doesn't know",
        "the file is cut off, too long, or changed", "the configuration was refused",
        "memory was refused", "no client or no handle was to be had", "unknown",
    };
    for (size_t status = 0; status < sizeof all / sizeof *all; status++) {
        EXPECT(strcmp(ferretgold_file_status_text((ferretgold_file_status)status), all[status]), 0);
    }
}

static void rows(void) {
    static image file;
    EXPECT(save(&file, SIZE_MAX), FERRETGOLD_FILE_OK);
    file.calls_left = SIZE_MAX;
    texts();
    as_described(&file);
    longest();
    numbered();
    into_others(&file);
    into_less(&file);
    damaged(&file);
    otherwise_sealed(&file);
    failing(&file);
    refused(&file);
}

/* ---- Mutated files --------------------------------------------------------------------------- */

static uint64_t random_state;

static size_t random_below(size_t end) {
    random_state += UINT64_C(0x9e3779b97f4a7c15);
    uint64_t z = random_state;
    z = (z ^ z >> 30) * UINT64_C(0xbf58476d1ce4e5b9);
    z = (z ^ z >> 27) * UINT64_C(0x94d049bb133111eb);
    return (size_t)((z ^ z >> 31) % end);
}

/* Changes bytes, cuts a part out, doubles one, or puts one in another's place. */
static void mutate(image *file) {
    const size_t from = random_below(file->length), to = random_below(file->length);
    size_t count = 1 + random_below(random_below(2) == 0 ? 8 : file->length);
    count = count < file->length - from ? count : file->length - from;
    switch (random_below(4)) {
    case 0:
        for (size_t times = 1 + random_below(3); times > 0; times--) {
            file->bytes[random_below(file->length)] = (uint8_t)random_below(256);
        }
        break;
    case 1:
        memmove(file->bytes + from, file->bytes + from + count, file->length - from - count);
        file->length -= count;
        break;
    case 2:
        if (file->length + count <= MOST_FILE) {
            memmove(file->bytes + from + count, file->bytes + from, file->length - from);
            file->length += count;
        }
        break;
    default:
        count = count < file->length - to ? count : file->length - to;
        memmove(file->bytes + to, file->bytes + from, count);
    }
}

/* However a file is changed, no entry comes from it that wasn't inserted. */
static void fuzz(uint64_t files, uint64_t seed) {
    static image file, mutated;
    const ferretgold_config config = config_of(2, 32, 6, 1000, 5);
    uint64_t damaged = 0, entries = 0;
    random_state = seed;
    EXPECT(save(&file, SIZE_MAX), FERRETGOLD_FILE_OK);
    for (uint64_t number = 0; number < files; number++) {
        ferretgold_cache *cache = NULL;
        mutated = file;
        mutated.calls_left = SIZE_MAX;
        for (size_t times = 1 + random_below(3); times > 0 && mutated.length > 0; times--) {
            mutate(&mutated);
        }
        const ferretgold_file_status status = load(&mutated, &config, true, &cache, NULL);
        damaged += status == FERRETGOLD_FILE_DAMAGED;
        EXPECT(status == FERRETGOLD_FILE_OK || status == FERRETGOLD_FILE_DAMAGED
               || status == FERRETGOLD_FILE_KIND, true);
        entries += cache == NULL ? 0 : whole(cache);
    }
    EXPECT(damaged > files / 2, true);
    EXPECT(entries > files, true);
}

/* ---- Files ----------------------------------------------------------------------------------- */

static void save_file(const char *path) {
    static image file;
    FILE *to = fopen(path, "wb");
    EXPECT(save(&file, SIZE_MAX), FERRETGOLD_FILE_OK);
    EXPECT(to != NULL && fwrite(file.bytes, 1, file.length, to) == file.length, true);
    EXPECT(to != NULL && fclose(to) == 0, true);
}

/* Prints the entries that a file gives to a cache. */
static void load_file(const char *path) {
    static image file;
    const ferretgold_config config = config_of(1, 64, 6, 1000, 9);
    ferretgold_cache *cache;
    ferretgold_closed *closed;
    ferretgold_entry entry;
    uint8_t value[LONGEST];
    FILE *from = fopen(path, "rb");
    file.length = from == NULL ? 0 : fread(file.bytes, 1, MOST_FILE, from);
    file.calls_left = SIZE_MAX;
    if (from != NULL) {
        (void)fclose(from);
    }
    const ferretgold_file_status status = load(&file, &config, false, &cache, NULL);
    if (status != FERRETGOLD_FILE_OK) {
        printf("refused: %d\n", (int)status);
        return;
    }
    EXPECT(ferretgold_close_keeping(cache, &closed), FERRETGOLD_OK);
    for (uint32_t slot = 0; slot < config.slots; slot++) {
        if (ferretgold_closed_entry(closed, 0, slot, &entry) == FERRETGOLD_OK) {
            EXPECT(ferretgold_closed_value(closed, 0, slot, value, sizeof value, NULL), FERRETGOLD_OK);
            printf("%" PRIu64 " %" PRIu64 " %" PRIu32 " %" PRIu32 " ", entry.key.w0, entry.key.w1,
                   entry.charge, entry.uses);
            for (size_t at = 0; at < entry.length; at++) {
                printf("%02x", value[at]);
            }
            puts("");
        }
    }
    ferretgold_closed_free(closed);
}

int main(int count, char **words) {
    heap_left = SIZE_MAX;
    if (count == 2 && strcmp(words[1], "rows") == 0) {
        rows();
    } else if (count == 4 && strcmp(words[1], "fuzz") == 0) {
        fuzz(strtoull(words[2], NULL, 10), strtoull(words[3], NULL, 10));
    } else if (count == 3 && strcmp(words[1], "save") == 0) {
        save_file(words[2]);
    } else if (count == 3 && strcmp(words[1], "load") == 0) {
        load_file(words[2]);
    } else {
        fputs("usage: file rows | file fuzz COUNT SEED | file save PATH | file load PATH\n", stderr);
        return 2;
    }
    EXPECT(heap_blocks, 0);
    return faults == 0 ? 0 : 1;
}
