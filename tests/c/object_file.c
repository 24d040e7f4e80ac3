/* Caches of objects that are saved while they run, and loaded: rows, damage of every bit and every
 * length, files whose checksums are right and which no save writes, calls of the caller's and requests
 * for memory that fail, and threads that insert and erase meanwhile. Linked with heap.c.
 * Usage: object_file rows | object_file save PATH | object_file load PATH */
enum { MOST_FILE = 1 << 22 };

#include "ferretgold_file.h"
#include "file_image.h"
#include "heap.h"

#define XXH_INLINE_ALL
#include <xxhash.h>

#include <inttypes.h>
#include <pthread.h>
#include <stdatomic.h>

enum {
    ENTRIES = 12, GONE = 3, NUMBER_KIND = 0xabcd, NUMBER_CHARGE = 0x12345678, LONGEST = 300000, SUM = 8,
    MANY = 70000, ENOUGH = 400, /* calls or requests */
    THREADS = 4, OPERATIONS = 30000
};

/* ---- Entries --------------------------------------------------------------------------------- */

/* Entry `number`, of which all is known by its key. Two are longer than what is copied at once, and for
 * one the room for what is read grows three times. */
static ferretgold_key key_of(uint64_t number) {
    return (ferretgold_key){number, number * number};
}

static size_t length_of(uint64_t number) {
    return number == 5 ? LONGEST : number == 6 ? 4096 : number == 7 ? 4097 : (size_t)number * 3;
}

static uint8_t byte_of(uint64_t number, size_t at) {
    return (uint8_t)(number * 41 + at * at + at / 251);
}

static bool are_bytes_of(uint64_t number, const uint8_t *bytes, size_t length) {
    bool is_so = length == length_of(number);
    for (size_t at = 0; is_so && at < length; at++) {
        is_so = bytes[at] == byte_of(number, at);
    }
    return is_so;
}

static ferretgold_object_config config_of(uint32_t shards, uint32_t slots, uint64_t capacity) {
    ferretgold_object_config it = FERRETGOLD_OBJECT_CONFIG;
    it.shards = shards;
    it.slots = slots;
    it.capacity = capacity;
    it.clients = 2;
    it.handles = 4;
    it.seed = 5;
    return it;
}

/* A number in place of bytes: none of its entry's fields would fit a shorter one. */
static const ferretgold_key number_key = {UINT64_C(0xfedcba9876543210), UINT64_C(0x0f1e2d3c4b5a6978)};

static void deleted(void *context, const ferretgold_key *key, void *object, uint16_t kind) {
    if (kind == NUMBER_KIND) {
        free(object);
    } else {
        ferretgold_object_free_bytes(context, key, object, kind);
    }
}

static ferretgold_object_cache *opened(const ferretgold_object_config *config) {
    ferretgold_object_cache *cache = NULL;
    EXPECT(ferretgold_object_open(config, deleted, NULL, &cache), FERRETGOLD_OK);
    return cache;
}

static void insert(ferretgold_object_cache *cache, uint64_t number) {
    static uint8_t bytes[LONGEST];
    const ferretgold_key key = key_of(number);
    for (size_t at = 0; at < length_of(number); at++) {
        bytes[at] = byte_of(number, at);
    }
    EXPECT(ferretgold_object_insert_bytes(cache, &key, bytes, length_of(number),
                                          (uint32_t)number + 1, FERRETGOLD_LOW, NULL),
           FERRETGOLD_OK);
}

/* A cache with all entries but one, which was erased, and an object of another kind. */
static ferretgold_object_cache *filled(void) {
    const ferretgold_object_config config = config_of(2, 32, UINT64_C(1) << 34);
    const ferretgold_key gone = key_of(GONE);
    ferretgold_object_cache *cache = opened(&config);
    uint64_t *number = malloc(sizeof *number);
    *number = UINT64_C(0x1122334455667788);
    for (uint64_t it = 0; it < ENTRIES; it++) {
        insert(cache, it);
    }
    EXPECT(ferretgold_object_insert(cache, &number_key, number, NUMBER_KIND, NUMBER_CHARGE,
                                    FERRETGOLD_LOW, NULL), FERRETGOLD_OK);
    EXPECT(ferretgold_object_erase(cache, &gone, NULL), FERRETGOLD_OK);
    return cache;
}

static void closed(ferretgold_object_cache *cache) {
    EXPECT(ferretgold_object_close(cache), FERRETGOLD_OK);
}

static ferretgold_file_status save(image *to, size_t calls, uint64_t *saved) {
    ferretgold_object_cache *cache = filled();
    empty_image(to);
    to->calls_left = calls;
    const ferretgold_file_status status =
        ferretgold_object_save(cache, NULL, NULL, NULL, write_image, to, saved);
    closed(cache);
    return status;
}

/* What is inserted of a file: each entry as it was saved. */
static bool make(void *context, const ferretgold_object_saved *it) {
    ferretgold_inserted inserted = FERRETGOLD_DROPPED;
    const uint64_t number = it->key.w0;
    EXPECT(number < ENTRIES && number != GONE && it->key.w1 == number * number, true);
    EXPECT(it->charge == number + 1 && it->kind == 0, true);
    EXPECT(are_bytes_of(number, it->bytes, it->length), true);
    return ferretgold_object_insert_bytes(context, &it->key, it->bytes, it->length, it->charge,
                                          FERRETGOLD_LOW, &inserted) == FERRETGOLD_OK
           && inserted == FERRETGOLD_PLACED;
}

static ferretgold_file_status load(image *from, ferretgold_object_cache *cache,
                                   ferretgold_loaded *loaded) {
    begin_image(from);
    return ferretgold_object_load(read_image, from, make, cache, loaded);
}

/* Looks all entries up: how many are there, each with its bytes. */
static uint64_t found(ferretgold_object_cache *cache) {
    uint64_t there = 0;
    for (uint64_t number = 0; number < ENTRIES; number++) {
        const ferretgold_key key = key_of(number);
        const ferretgold_object_handle *handle = NULL;
        size_t length = 0;
        if (ferretgold_object_lookup(cache, &key, &handle) == FERRETGOLD_OK) {
            const uint8_t *bytes = ferretgold_object_bytes(handle, &length);
            EXPECT(are_bytes_of(number, bytes, length) && handle->charge == number + 1, true);
            EXPECT(ferretgold_object_release(cache, handle, false, false, NULL), FERRETGOLD_OK);
            there++;
        }
    }
    return there;
}

/* ---- Rows ------------------------------------------------------------------------------------ */

/* A file is loaded whole where there is room; else later entries take the place of others. What is
 * there already stays. */
static void into_others(image *file) {
    static const struct {
        const char *name;
        uint32_t shards, slots;
        uint64_t capacity, there;
    } rows[] = {
        {"as it was: ", 2, 32, 1000, ENTRIES - 1},
        {"more shards: ", 8, 16, 8000, ENTRIES - 1},
        {"6 entries fit, and evictions free more than one: ", 1, 8, 1000, 5},
    };
    for (size_t at = 0; at < sizeof rows / sizeof *rows; at++) {
        ferretgold_object_config config =
            config_of(rows[at].shards, rows[at].slots, rows[at].capacity);
        ferretgold_loaded loaded = {0, 0, 0};
        where = rows[at].name;
        ferretgold_object_cache *cache = opened(&config);
        EXPECT(load(file, cache, &loaded), FERRETGOLD_FILE_OK);
        EXPECT(loaded.entries, ENTRIES - 1);
        EXPECT(loaded.left, ENTRIES - 1);
        EXPECT(loaded.lost, 0);
        EXPECT(found(cache), rows[at].there);
        EXPECT(load(file, cache, &loaded), FERRETGOLD_FILE_OK);
        EXPECT(loaded.left == 0, rows[at].there == ENTRIES - 1);
        EXPECT(loaded.left + loaded.lost, ENTRIES - 1);
        closed(cache);
    }
    where = "";
}

/* No changed bit is taken, and no shorter or longer file. What stands before is loaded. */
static void damaged(image *file) {
    const ferretgold_object_config config = config_of(2, 32, 1000);
    const size_t length = file->length, step = 4099;
    ferretgold_object_cache *cache = opened(&config);
    ferretgold_loaded loaded;
    for (size_t at = 0; at < 8 * length; at += at < 8 * 400 || at > 8 * (length - 100) ? 1 : step) {
        file->bytes[at / 8] ^= (uint8_t)(1 << at % 8);
        EXPECT(load(file, cache, &loaded), at < 64 ? FERRETGOLD_FILE_KIND : FERRETGOLD_FILE_DAMAGED);
        EXPECT(loaded.entries < ENTRIES && (at >= 8 * BEGIN || loaded.entries == 0), true);
        file->bytes[at / 8] ^= (uint8_t)(1 << at % 8);
    }
    for (file->length = 0; file->length < length + 2; file->length++) {
        EXPECT(load(file, cache, &loaded), file->length == length ? FERRETGOLD_FILE_OK
                                           : file->length < 8     ? FERRETGOLD_FILE_KIND
                                                                  : FERRETGOLD_FILE_DAMAGED);
        file->length += file->length > 400 && file->length < length - 200 ? step : 0;
    }
    file->length = length;
    closed(cache);
}

/* The file's fields, also those that are 0. Gives where the end stands. */
static size_t as_described(const image *file) {
    size_t at = BEGIN;
    EXPECT(memcmp(file->bytes, "FERRETG1", 8), 0);
    EXPECT(number_at(file->bytes + 8, 4), 2);
    EXPECT(number_at(file->bytes + 12, 4), 0);
    EXPECT(number_at(file->bytes + 16, 8), 0);
    EXPECT(number_at(file->bytes + 24, 8), XXH64(file->bytes, 24, 0));
    for (uint64_t entry = 1; entry < ENTRIES; entry++) {
        const uint8_t *head = file->bytes + at;
        const uint64_t number = number_at(head, 8);
        const size_t length = length_of(number);
        EXPECT(number_at(head + 8, 8), number * number);
        EXPECT(number_at(head + 16, 4), number + 1);
        EXPECT(number_at(head + 20, 2), 0);
        EXPECT(number_at(head + 22, 2), 0);
        EXPECT(number_at(head + 24, 8), length);
        EXPECT(number_at(head + 32, 8), XXH64(head, HEAD - SUM, entry));
        EXPECT(are_bytes_of(number, head + HEAD, length), true);
        EXPECT(number_at(head + HEAD + length, SUM), XXH64(head + HEAD, length, entry));
        at += HEAD + length + SUM;
    }
    EXPECT(number_at(file->bytes + at, 8) + number_at(file->bytes + at + 8, 8), 0);
    EXPECT(number_at(file->bytes + at + 16, 8), 0);
    EXPECT(number_at(file->bytes + at + 24, 8), ENTRIES - 1);
    EXPECT(file->length, at + HEAD);
    return at;
}

/* Fields that no save writes, under checksums that are right. `end` is where the end stands. */
static void otherwise_sealed(const image *file, size_t end) {
    static image other;
    const uint64_t first = number_at(file->bytes + BEGIN + 24, 8);
    const struct {
        size_t at, count;
        uint64_t number;
        ferretgold_file_status status;
        uint64_t entries;
    } rows[] = {
        {8, 4, 1, FERRETGOLD_FILE_VERSION, 0},
        {8, 4, 2, FERRETGOLD_FILE_OK, ENTRIES - 1},
        {8, 4, 3, FERRETGOLD_FILE_VERSION, 0},
        {12, 4, 1, FERRETGOLD_FILE_DAMAGED, 0},
        {16, 8, 1, FERRETGOLD_FILE_DAMAGED, 0},
        {16, 8, UINT64_C(1) << 40, FERRETGOLD_FILE_DAMAGED, 0},
        {BEGIN + 16, 4, 0, FERRETGOLD_FILE_DAMAGED, 0},
        {BEGIN + 22, 2, 1, FERRETGOLD_FILE_DAMAGED, 0},
        {BEGIN + 24, 8, UINT64_MAX, FERRETGOLD_FILE_DAMAGED, 0},
        {BEGIN + 24, 8, UINT64_C(1) << 62, FERRETGOLD_FILE_DAMAGED, 0},
        {BEGIN + 24, 8, first + (UINT64_C(1) << 32), FERRETGOLD_FILE_DAMAGED, 0},
        {end, 8, 1, FERRETGOLD_FILE_DAMAGED, ENTRIES - 1},
        {end + 8, 8, 1, FERRETGOLD_FILE_DAMAGED, ENTRIES - 1},
        {end + 20, 2, 1, FERRETGOLD_FILE_DAMAGED, ENTRIES - 1},
        {end + 22, 2, 1, FERRETGOLD_FILE_DAMAGED, ENTRIES - 1},
        {end + 24, 8, ENTRIES, FERRETGOLD_FILE_DAMAGED, ENTRIES - 1},
        {end + 24, 8, ENTRIES - 2, FERRETGOLD_FILE_DAMAGED, ENTRIES - 1},
        {end + 24, 8, (UINT64_C(1) << 32) + ENTRIES - 1, FERRETGOLD_FILE_DAMAGED, ENTRIES - 1},
    };
    for (size_t row = 0; row < sizeof rows / sizeof *rows; row++) {
        const ferretgold_object_config config = config_of(2, 32, 1000);
        ferretgold_loaded loaded = {77, 77, 77};
        ferretgold_object_cache *cache = opened(&config);
        other = *file;
        set_number(other.bytes + rows[row].at, rows[row].count, rows[row].number);
        set_number(other.bytes + BEGIN - SUM, SUM, XXH64(other.bytes, BEGIN - SUM, 0));
        set_number(other.bytes + BEGIN + HEAD - SUM, SUM, XXH64(other.bytes + BEGIN, HEAD - SUM, 1));
        set_number(other.bytes + end + HEAD - SUM, SUM, XXH64(other.bytes + end, HEAD - SUM, ENTRIES));
        EXPECT(load(&other, cache, &loaded), rows[row].status);
        EXPECT(loaded.entries, rows[row].entries);
        EXPECT(loaded.left, rows[row].entries);
        closed(cache);
    }
}

/* Each call of the caller's that fails is told, and so is each request for memory that is refused. */
static void failing(image *file) {
    static image other;
    const ferretgold_object_config config = config_of(2, 32, 1000);
    ferretgold_loaded loaded;
    uint64_t saved = 0;
    size_t calls = 0;
    while (calls < ENOUGH && save(&other, calls, &saved) == FERRETGOLD_FILE_WRITE) {
        EXPECT(saved < ENTRIES, true);
        calls++;
    }
    EXPECT(save(&other, calls, &saved), FERRETGOLD_FILE_OK);
    EXPECT(calls > 3 * ENTRIES && saved == ENTRIES - 1, true);
    for (calls = 0; calls < ENOUGH; calls++) {
        ferretgold_object_cache *cache = opened(&config);
        file->calls_left = calls;
        const ferretgold_file_status status = load(file, cache, &loaded);
        EXPECT(found(cache), loaded.left);
        closed(cache);
        if (status == FERRETGOLD_FILE_OK) {
            break;
        }
        EXPECT(status, FERRETGOLD_FILE_READ);
    }
    EXPECT(loaded.left, ENTRIES - 1);
    file->calls_left = SIZE_MAX;
    for (size_t met = 0; met < ENOUGH; met++) {
        ferretgold_object_cache *cache = opened(&config);
        heap_once = met % 2;
        heap_left = met / 2;
        const ferretgold_file_status status = load(file, cache, &loaded);
        heap_left = SIZE_MAX;
        EXPECT(status == FERRETGOLD_FILE_OK || status == FERRETGOLD_FILE_MEMORY, true);
        EXPECT(found(cache), loaded.left);
        closed(cache);
    }
    EXPECT(loaded.left, ENTRIES - 1);
}

/* Makes nothing: counts, and looks whether it is the next object. */
static bool count_one(void *context, const ferretgold_object_saved *it) {
    uint64_t *count = context;
    *count += 1;
    return it->length == 0;
}

/* More objects than two bytes count, each under its number; they are saved from one cache. */
static void numbered(image *file) {
    const ferretgold_object_config config = config_of(2, 1 << 16, 2 * MANY);
    ferretgold_object_cache *cache = opened(&config);
    ferretgold_loaded loaded = {0, 0, 0};
    uint64_t saved = 0, count = 0;
    for (uint64_t it = 0; it < MANY; it++) {
        const ferretgold_key key = {it, it};
        EXPECT(ferretgold_object_insert_bytes(cache, &key, NULL, 0, 1, FERRETGOLD_LOW, NULL), FERRETGOLD_OK);
    }
    empty_image(file);
    EXPECT(ferretgold_object_save(cache, NULL, NULL, NULL, write_image, file, &saved), FERRETGOLD_FILE_OK);
    EXPECT(saved, MANY);
    for (uint64_t number = 1; number <= MANY; number++) {
        const uint8_t *head = file->bytes + BEGIN + (number - 1) * (HEAD + SUM);
        EXPECT(number_at(head + HEAD - SUM, SUM), XXH64(head, HEAD - SUM, number));
        EXPECT(number_at(head + HEAD, SUM), XXH64(head, 0, number));
    }
    EXPECT(ferretgold_object_load(read_image, file, count_one, &count, &loaded), FERRETGOLD_FILE_OK);
    EXPECT(count == MANY && loaded.entries == MANY && loaded.left == MANY && loaded.lost == 0, true);
    closed(cache);
}

/* ---- Objects of the caller's ----------------------------------------------------------------- */

static uint64_t number_size(void *context, const ferretgold_object_handle *handle) {
    (void)context;
    return handle->kind == NUMBER_KIND ? sizeof(uint64_t) : UINT64_MAX;
}

static bool number_copy(void *context, const ferretgold_object_handle *handle, uint64_t offset,
                        void *bytes, size_t count) {
    const uint64_t *number = handle->object;
    EXPECT(offset == 0 && count == sizeof *number, true);
    memcpy(bytes, number, count);
    return *(bool *)context;
}

static bool number_make(void *context, const ferretgold_object_saved *it) {
    uint64_t number = 0;
    EXPECT(it->key.w0 == number_key.w0 && it->key.w1 == number_key.w1, true);
    EXPECT(it->kind == NUMBER_KIND && it->charge == NUMBER_CHARGE, true);
    EXPECT(it->length, sizeof number);
    memcpy(&number, it->bytes, sizeof number);
    *(uint64_t *)context += number;
    return false;
}

/* The caller's functions say what is saved, and what becomes of it; and null pointers. */
static void of_a_kind(image *file) {
    ferretgold_object_cache *cache = filled();
    ferretgold_loaded loaded = {0, 0, 0};
    uint64_t saved = 0, sum = 0;
    bool could = true;
    for (int round = 0; round < 2; round++, could = false) {
        empty_image(file);
        EXPECT(ferretgold_object_save(cache, number_size, number_copy, &could, write_image, file,
                                      &saved), could ? FERRETGOLD_FILE_OK : FERRETGOLD_FILE_WRITE);
        EXPECT(saved, could);
        EXPECT(ferretgold_object_load(read_image, file, number_make, &sum, &loaded),
               could ? FERRETGOLD_FILE_OK : FERRETGOLD_FILE_DAMAGED);
        EXPECT(loaded.entries == could && loaded.left == 0 && loaded.lost == could, true);
    }
    EXPECT(sum == UINT64_C(0x1122334455667788), true);
    EXPECT(ferretgold_object_save(NULL, NULL, NULL, NULL, write_image, file, NULL), FERRETGOLD_FILE_NULL);
    EXPECT(ferretgold_object_save(cache, number_size, NULL, NULL, write_image, file, NULL),
           FERRETGOLD_FILE_NULL);
    EXPECT(ferretgold_object_save(cache, NULL, number_copy, NULL, write_image, file, NULL),
           FERRETGOLD_FILE_NULL);
    EXPECT(ferretgold_object_save(cache, NULL, NULL, NULL, NULL, file, NULL), FERRETGOLD_FILE_NULL);
    EXPECT(ferretgold_object_load(NULL, file, number_make, NULL, NULL), FERRETGOLD_FILE_NULL);
    EXPECT(ferretgold_object_load(read_image, file, NULL, NULL, NULL), FERRETGOLD_FILE_NULL);
    closed(cache);
}

/* How often a save lets others go first, and the handle that is given back at the third time. */
static int yields = 0;
static ferretgold_object_cache *yielding = NULL;
static const ferretgold_object_handle *given_back = NULL;

int sched_yield(void) {
    if (++yields == 3 && given_back != NULL) {
        EXPECT(ferretgold_object_release(yielding, given_back, true, false, NULL), FERRETGOLD_OK);
    }
    return 0;
}

/* With all handles out there is nothing to walk with, until one is given back. */
static void busy(image *file) {
    ferretgold_object_config config = config_of(1, 8, 100);
    const ferretgold_object_handle *handle = NULL;
    const ferretgold_key key = key_of(1);
    uint64_t saved = 77;
    config.clients = config.handles = 1;
    yielding = opened(&config);
    insert(yielding, 1);
    EXPECT(ferretgold_object_lookup(yielding, &key, &handle), FERRETGOLD_OK);
    empty_image(file);
    EXPECT(ferretgold_object_save(yielding, NULL, NULL, NULL, write_image, file, &saved),
           FERRETGOLD_FILE_BUSY);
    EXPECT(saved == 0 && yields == 63, true);
    yields = 0;
    given_back = handle;
    empty_image(file);
    EXPECT(ferretgold_object_save(yielding, NULL, NULL, NULL, write_image, file, NULL),
           FERRETGOLD_FILE_OK);
    EXPECT(file->length == BEGIN + HEAD + length_of(1) + SUM + HEAD && yields == 3, true);
    closed(yielding);
}

/* A file of each version is one that the other's loader doesn't know. */
static void of_other_versions(image *file) {
    const ferretgold_config plain = FERRETGOLD_CONFIG;
    ferretgold_cache *cache = NULL;
    ferretgold_closed *left = NULL;
    begin_image(file);
    EXPECT(ferretgold_load(&plain, read_image, file, true, &cache, NULL), FERRETGOLD_FILE_VERSION);
    EXPECT(cache == NULL, true);
    EXPECT(ferretgold_open(&plain, &cache), FERRETGOLD_OK);
    EXPECT(ferretgold_close_keeping(cache, &left), FERRETGOLD_OK);
    empty_image(file);
    EXPECT(ferretgold_save(left, write_image, file), FERRETGOLD_FILE_OK);
    ferretgold_closed_free(left);
    EXPECT(ferretgold_object_load(read_image, file, make, NULL, NULL), FERRETGOLD_FILE_VERSION);
}

/* ---- Threads --------------------------------------------------------------------------------- */

/* Objects that no thread allocates. */
enum { STANDING = 24 };
static uint64_t standing[STANDING];
static atomic_bool is_over = false;

static void leave(void *context, const ferretgold_key *key, void *object, uint16_t kind) {
    (void)context, (void)key, (void)object, (void)kind;
}

static void *work(void *context) {
    for (uint64_t n = 0; n < OPERATIONS || !atomic_load(&is_over); n++) {
        const uint64_t number = n * 7 % STANDING;
        const ferretgold_key key = {number, 1};
        (void)ferretgold_object_insert(context, &key, &standing[number], NUMBER_KIND, 9,
                                       FERRETGOLD_LOW, NULL);
        if (n % 4 == 0) {
            (void)ferretgold_object_erase(context, &key, NULL);
        }
    }
    return NULL;
}

static bool is_standing(void *context, const ferretgold_object_saved *it) {
    uint64_t number = 0;
    memcpy(&number, it->bytes, it->length);
    *(uint64_t *)context += 1;
    return it->length == sizeof number && it->kind == NUMBER_KIND && it->key.w0 < STANDING
           && number == standing[it->key.w0];
}

/* What is saved while threads insert and erase is whole. */
static void beside_threads(image *file) {
    ferretgold_object_config config = config_of(2, 32, 1000);
    ferretgold_object_cache *cache = NULL;
    pthread_t threads[THREADS];
    uint64_t saved = 0, all = 0, read = 0;
    bool could = true;
    config.clients = THREADS + 1;
    for (uint64_t number = 0; number < STANDING; number++) {
        standing[number] = number * UINT64_C(0x9e3779b97f4a7c15);
    }
    EXPECT(ferretgold_object_open(&config, leave, NULL, &cache), FERRETGOLD_OK);
    for (int it = 0; it < THREADS; it++) {
        EXPECT(pthread_create(&threads[it], NULL, work, cache), 0);
    }
    for (int round = 0; round < 200 || all < 1000; round++) {
        ferretgold_loaded loaded = {0, 0, 0};
        empty_image(file);
        EXPECT(ferretgold_object_save(cache, number_size, number_copy, &could, write_image, file,
                                      &saved), FERRETGOLD_FILE_OK);
        EXPECT(ferretgold_object_load(read_image, file, is_standing, &read, &loaded),
               FERRETGOLD_FILE_OK);
        EXPECT(loaded.entries == saved && loaded.lost == 0, true);
        all += saved;
    }
    atomic_store(&is_over, true);
    for (int it = 0; it < THREADS; it++) {
        EXPECT(pthread_join(threads[it], NULL), 0);
    }
    EXPECT(read, all);
    closed(cache);
}

static void rows(void) {
    static image file, other;
    uint64_t saved = 0;
    EXPECT(save(&file, SIZE_MAX, &saved), FERRETGOLD_FILE_OK);
    EXPECT(saved, ENTRIES - 1);
    file.calls_left = other.calls_left = SIZE_MAX;
    const size_t end = as_described(&file);
    into_others(&file);
    damaged(&file);
    otherwise_sealed(&file, end);
    failing(&file);
    of_a_kind(&other);
    busy(&other);
    beside_threads(&other);
    numbered(&other);
    of_other_versions(&file);
}

/* ---- Files ----------------------------------------------------------------------------------- */

static void save_file(const char *path) {
    static image file;
    FILE *to = fopen(path, "wb");
    EXPECT(save(&file, SIZE_MAX, NULL), FERRETGOLD_FILE_OK);
    EXPECT(to != NULL && fwrite(file.bytes, 1, file.length, to) == file.length, true);
    EXPECT(to != NULL && fclose(to) == 0, true);
}

static bool print(void *context, const ferretgold_object_saved *it) {
    const uint8_t *bytes = it->bytes;
    printf("%" PRIu64 " %" PRIu64 " %" PRIu32 " %" PRIu32 " ", it->key.w0, it->key.w1, it->charge,
           (uint32_t)it->kind);
    for (size_t at = 0; at < it->length; at++) {
        printf("%02x", bytes[at]);
    }
    puts("");
    (void)context;
    return true;
}

/* Prints the entries that a file has. */
static void load_file(const char *path) {
    static image file;
    FILE *from = fopen(path, "rb");
    file.length = from == NULL ? 0 : fread(file.bytes, 1, MOST_FILE, from);
    file.calls_left = SIZE_MAX;
    if (from != NULL) {
        (void)fclose(from);
    }
    const ferretgold_file_status status = ferretgold_object_load(read_image, &file, print, NULL, NULL);
    if (status != FERRETGOLD_FILE_OK) {
        printf("refused: %d\n", (int)status);
    }
}

int main(int count, char **words) {
    heap_left = SIZE_MAX;
    if (count == 2 && strcmp(words[1], "rows") == 0) {
        rows();
    } else if (count == 3 && strcmp(words[1], "save") == 0) {
        save_file(words[2]);
    } else if (count == 3 && strcmp(words[1], "load") == 0) {
        load_file(words[2]);
    } else {
        fputs("usage: object_file rows | object_file save PATH | object_file load PATH\n", stderr);
        return 2;
    }
    EXPECT(heap_blocks, 0);
    return faults == 0 ? 0 : 1;
}
