/* Dumps of caches of bytes that run: they have what saving has once the cache is closed, and are loaded; what
 * fails; keys that are there twice.
 * Usage: dump rows */
#define _GNU_SOURCE

enum { MOST_FILE = 1 << 18 };

#include "ferretgold_file.h"
#include "file_image.h"
#include "heap.h"

#include <limits.h>
#include <signal.h>
#include <sys/resource.h>
#include <unistd.h>

enum { LONGEST = 4096, HANDLES = 4 };

static char path[PATH_MAX], beside[PATH_MAX + 8];

/* What a writing to a file does first, behind so many others, once: whether it goes on. */
static bool (*hooked)(void) = NULL;
static unsigned writings_left = 0;

/* In place of the system's. */
size_t fwrite(const void *bytes, size_t size, size_t count, FILE *to) {
    bool (*const now)(void) = hooked != NULL && writings_left-- == 0 ? hooked : NULL;
    hooked = now != NULL ? NULL : hooked;
    return now == NULL || now() ? fwrite_unlocked(bytes, size, count, to) : 0;
}

static bool refuse(void) {
    return false;
}

/* ---- Entries --------------------------------------------------------------------------------- */

static ferretgold_key key_of(uint64_t number) {
    return (ferretgold_key){number, number * number};
}

/* The value of an entry, of at most so many bytes: how many. */
static size_t value_of(uint64_t number, size_t most, uint8_t *value) {
    const size_t length = number % 4 == 1 ? most : (size_t)(number * 7 % (most + 1));
    for (size_t at = 0; at < length; at++) {
        value[at] = (uint8_t)(number * 41 + at);
    }
    return length;
}

static void insert(ferretgold_client *it, uint64_t number, size_t most) {
    const ferretgold_key key = key_of(number);
    uint8_t value[LONGEST];
    const size_t length = value_of(number, most, value);
    ferretgold_inserted inserted = FERRETGOLD_DROPPED;
    EXPECT(ferretgold_insert(it, &key, value, length, (uint32_t)number + 1,
                             (ferretgold_priority)(number % 3), &inserted), 0);
    EXPECT(inserted, FERRETGOLD_PLACED);
}

static bool is_there(ferretgold_client *it, uint64_t number, size_t most) {
    const ferretgold_key key = key_of(number);
    uint8_t value[LONGEST], wanted[LONGEST];
    size_t length = 0;
    return ferretgold_get(it, &key, value, sizeof value, false, &length) == FERRETGOLD_OK
           && length == value_of(number, most, wanted) && memcmp(value, wanted, length) == 0;
}

static ferretgold_config config_of(uint32_t shards, uint32_t slots, uint32_t room) {
    return (ferretgold_config){.slots = slots, .room = room, .clients = 2, .handles = HANDLES,
                               .shards = shards, .capacity = UINT64_C(1) << 34,
                               .serials = FERRETGOLD_MOST_SERIALS, .seed = 5};
}

static ferretgold_cache *opened(const ferretgold_config *config, ferretgold_client **client) {
    ferretgold_cache *cache = NULL;
    EXPECT(ferretgold_open(config, &cache), 0);
    EXPECT(ferretgold_client_open(cache, client), 0);
    return cache;
}

static void closed(ferretgold_cache *cache, ferretgold_client *client) {
    EXPECT(ferretgold_client_close(cache, client), 0);
    EXPECT(ferretgold_close(cache, NULL), 0);
}

/* ---- Files ----------------------------------------------------------------------------------- */

/* The file of the last dump. */
static image *dumped(void) {
    static image file;
    FILE *from = fopen(path, "rb");
    file.length = from == NULL ? 0 : fread(file.bytes, 1, MOST_FILE, from);
    file.calls_left = SIZE_MAX;
    begin_image(&file);
    if (from != NULL) {
        (void)fclose(from);
    }
    return &file;
}

/* A cache that begins with it. */
static ferretgold_cache *begun(const ferretgold_config *config, ferretgold_client **client,
                               ferretgold_loaded *loaded) {
    ferretgold_cache *cache = NULL;
    EXPECT(ferretgold_load(config, read_image, dumped(), false, &cache, loaded), FERRETGOLD_FILE_OK);
    EXPECT(ferretgold_client_open(cache, client), 0);
    return cache;
}

/* ---- Rows ------------------------------------------------------------------------------------ */

/* Entries, of which the fourth was erased: their dump is what saving writes of them. */
static void dumps(const ferretgold_config *config, uint64_t entries) {
    static image saved;
    const size_t most = 8 * config->room;
    const ferretgold_key fourth = key_of(3);
    ferretgold_client *client = NULL;
    ferretgold_cache *cache = opened(config, &client);
    ferretgold_closed *left = NULL;
    ferretgold_loaded loaded = {77, 77, 77};
    uint64_t count = 77;
    for (uint64_t number = 0; number < entries; number++) {
        insert(client, number, most);
    }
    EXPECT(ferretgold_erase(client, &fourth, NULL), 0);
    EXPECT(ferretgold_dump(client, path, NULL), FERRETGOLD_FILE_OK);
    EXPECT(ferretgold_dump(client, path, &count), FERRETGOLD_FILE_OK);
    EXPECT(count, entries - (entries > 3));
    EXPECT(access(beside, F_OK), -1);
    EXPECT(ferretgold_held(client), 0);
    EXPECT(ferretgold_client_close(cache, client), 0);
    EXPECT(ferretgold_close_keeping(cache, &left), 0);
    empty_image(&saved);
    saved.calls_left = SIZE_MAX;
    EXPECT(ferretgold_save(left, write_image, &saved), FERRETGOLD_FILE_OK);
    ferretgold_closed_free(left);
    EXPECT(dumped()->length, saved.length);
    EXPECT(memcmp(dumped()->bytes, saved.bytes, saved.length), 0);
    cache = begun(config, &client, &loaded);
    EXPECT(loaded.entries == count && loaded.left == count, true);
    for (uint64_t number = 0; number < entries; number++) {
        EXPECT(is_there(client, number, most), number != 3);
    }
    closed(cache, client);
}

/* What fails leaves the dump before it, and nothing beside it. */
static void fails_so(ferretgold_client *client, const char *to, ferretgold_file_status wanted) {
    static image before;
    uint64_t count = 77;
    before = *dumped();
    EXPECT(ferretgold_dump(client, to, &count), wanted);
    EXPECT(count, 77);
    EXPECT(access(beside, F_OK), -1);
    EXPECT(dumped()->length, before.length);
    EXPECT(memcmp(dumped()->bytes, before.bytes, before.length), 0);
}

/* Where the disk has no room, or none but for a part. */
static void without_room(ferretgold_client *client) {
    const size_t length = dumped()->length;
    struct rlimit limit;
    EXPECT(getrlimit(RLIMIT_FSIZE, &limit), 0);
    (void)signal(SIGXFSZ, SIG_IGN);
    for (size_t most = 0; most < length; most += length / 5) {
        const struct rlimit little = {most, limit.rlim_max};
        EXPECT(setrlimit(RLIMIT_FSIZE, &little), 0);
        fails_so(client, path, FERRETGOLD_FILE_WRITE);
    }
    EXPECT(setrlimit(RLIMIT_FSIZE, &limit), 0);
}

static void fails(uint64_t entries) {
    const ferretgold_config config = config_of(1, 64, LONGEST / 8);
    const ferretgold_key key = key_of(1);
    ferretgold_client *client = NULL;
    ferretgold_cache *cache = opened(&config, &client);
    ferretgold_handle held[HANDLES];
    char folder[PATH_MAX + 16];
    for (uint64_t number = 0; number < entries; number++) {
        insert(client, number, LONGEST);
    }
    EXPECT(ferretgold_dump(client, path, NULL), FERRETGOLD_FILE_OK);
    without_room(client);
    for (unsigned k = 0; k < entries + 2; k++) { /* the begin twice, and each entry */
        hooked = refuse;
        writings_left = k;
        fails_so(client, path, FERRETGOLD_FILE_WRITE);
        EXPECT(hooked == NULL, true);
    }
    (void)snprintf(folder, sizeof folder, "%s.none/dump", path);
    fails_so(client, folder, FERRETGOLD_FILE_WRITE);
    fails_so(client, NULL, FERRETGOLD_FILE_NULL);
    fails_so(NULL, path, FERRETGOLD_FILE_NULL);
    heap_left = 0;
    fails_so(client, path, FERRETGOLD_FILE_MEMORY);
    heap_left = SIZE_MAX;
    for (int k = 0; k < HANDLES; k++) {
        EXPECT(ferretgold_lookup(client, &key, &held[k]), 0);
    }
    fails_so(client, path, FERRETGOLD_FILE_BUSY);
    EXPECT(ferretgold_client_close_releasing(cache, client), 0);
    fails_so(client, path, FERRETGOLD_FILE_BUSY);
    EXPECT(ferretgold_close(cache, NULL), 0);
}

/* ---- Keys that are there twice --------------------------------------------------------------- */

static ferretgold_client *other = NULL;
static uint64_t twice = 0; /* of this number */

/* While an entry is written, another client erases it and inserts the key anew. */
static bool insert_anew(void) {
    const ferretgold_key key = key_of(twice);
    EXPECT(ferretgold_erase(other, &key, NULL), 0);
    EXPECT(ferretgold_insert(other, &key, "new", 3, 1, FERRETGOLD_LOW, NULL), 0);
    return true;
}

/* Where its new slot is behind the one that was seen the file has both, and the new one comes in. */
static void comes_last(void) {
    const ferretgold_config config = config_of(1, 8, 1);
    uint64_t both = 0;
    for (twice = 1; twice <= 32; twice++) {
        ferretgold_client *client = NULL;
        ferretgold_cache *cache = opened(&config, &client);
        const ferretgold_key key = key_of(twice);
        ferretgold_loaded loaded = {77, 77, 77};
        char value[8] = "";
        EXPECT(ferretgold_client_open(cache, &other), 0);
        EXPECT(ferretgold_insert(client, &key, "old", 3, 1, FERRETGOLD_LOW, NULL), 0);
        hooked = insert_anew;
        writings_left = 1; /* behind the begin */
        EXPECT(ferretgold_dump(client, path, NULL), FERRETGOLD_FILE_OK);
        EXPECT(hooked == NULL, true);
        EXPECT(ferretgold_client_close(cache, other), 0);
        closed(cache, client);
        cache = begun(&config, &client, &loaded);
        EXPECT(loaded.entries == loaded.lost + 1 && loaded.left == 1 && loaded.lost <= 1, true);
        EXPECT(ferretgold_get(client, &key, value, sizeof value, false, NULL), 0);
        EXPECT(strcmp(value, loaded.lost == 1 ? "new" : "old"), 0);
        both += loaded.lost;
        closed(cache, client);
    }
    EXPECT(both > 0, true);
}

static void rows(void) {
    static const struct {
        const char *name;
        uint32_t shards, slots, room;
        uint64_t entries;
    } ALL[] = {{"nothing: ", 1, 8, 1, 0},
               {"one: ", 1, 8, 1, 1},
               {"some, by two shards: ", 2, 32, 6, 20},
               {"the longest values, more than is written at once: ", 1, 64, LONGEST / 8, 40}};
    for (size_t k = 0; k < sizeof ALL / sizeof *ALL; k++) {
        const ferretgold_config config = config_of(ALL[k].shards, ALL[k].slots, ALL[k].room);
        where = ALL[k].name;
        dumps(&config, ALL[k].entries);
    }
    where = "";
    fails(2);
    fails(40);
    comes_last();
}

int main(int count, char **words) {
    char folder[] = P_tmpdir "/ferretgold-XXXXXX";
    if (count != 2 || strcmp(words[1], "rows") != 0) {
        fputs("usage: dump rows\n", stderr);
        return 2;
    }
    EXPECT(mkdtemp(folder) != NULL, true);
    (void)snprintf(path, sizeof path, "%s/dump", folder);
    (void)snprintf(beside, sizeof beside, "%s.new", path);
    rows();
    EXPECT(unlink(path), 0);
    EXPECT(rmdir(folder), 0);
    EXPECT(heap_blocks, 0);
    return faults != 0;
}
