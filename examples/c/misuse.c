/* Every misuse that the header names is answered as it says, and changes nothing. */
#include "ferretgold.h"

#include <stdio.h>
#include <string.h>
#include <sys/resource.h>

#if defined(__has_feature)
#if __has_feature(address_sanitizer) && !defined(__SANITIZE_ADDRESS__)
#define __SANITIZE_ADDRESS__ 1
#endif
#endif

static int failed = 0;

static void expect(int line, const char *what, long long told, long long wanted) {
    if (told != wanted) {
        printf("line %d: %s is %lld, not %lld\n", line, what, told, wanted);
        failed++;
    }
}

#define EXPECT(what, wanted) expect(__LINE__, #what, (long long)(what), (long long)(wanted))

static const ferretgold_config SMALL = {.slots = 8, .room = 2, .clients = 2, .handles = 2,
                                        .shards = 1, .strict = true, .capacity = 100,
                                        .serials = 40, .seed = 1};
static const ferretgold_key KEY = {1, 2};
static const ferretgold_key OTHER = {3, 4};

/* What a client can tell of itself and of its cache without using a serial. */
typedef struct picture {
    uint64_t usage, pinned, occupancy, left;
    uint32_t held;
} picture;

static picture picture_of(ferretgold_client *client) {
    picture it = {0, 0, 0, ferretgold_serials_left(client), ferretgold_held(client)};
    EXPECT(ferretgold_usage(client, &it.usage), FERRETGOLD_OK);
    EXPECT(ferretgold_pinned_usage(client, &it.pinned), FERRETGOLD_OK);
    EXPECT(ferretgold_occupancy(client, &it.occupancy), FERRETGOLD_OK);
    return it;
}

static void same(int line, picture was, ferretgold_client *client) {
    picture is = picture_of(client);
    expect(line, "usage", (long long)is.usage, (long long)was.usage);
    expect(line, "pinned usage", (long long)is.pinned, (long long)was.pinned);
    expect(line, "occupancy", (long long)is.occupancy, (long long)was.occupancy);
    expect(line, "serials left", (long long)is.left, (long long)was.left);
    expect(line, "handles held", is.held, was.held);
}

/* Each field of a configuration out of its range, below and above. */
static void configurations(void) {
    ferretgold_cache *cache = NULL;
    ferretgold_config all[14];
    static const ferretgold_status wanted[14] = {
        FERRETGOLD_BAD_SLOTS,    FERRETGOLD_BAD_SLOTS,    FERRETGOLD_BAD_SLOTS,
        FERRETGOLD_BAD_ROOM,     FERRETGOLD_BAD_ROOM,     FERRETGOLD_BAD_CLIENTS,
        FERRETGOLD_BAD_CLIENTS,  FERRETGOLD_BAD_HANDLES,  FERRETGOLD_BAD_HANDLES,
        FERRETGOLD_BAD_SHARDS,   FERRETGOLD_BAD_SHARDS,   FERRETGOLD_BAD_CAPACITY,
        FERRETGOLD_BAD_SERIALS,  FERRETGOLD_BAD_SERIALS};
    for (int k = 0; k < 14; k++) {
        all[k] = SMALL;
    }
    all[0].slots = 4, all[1].slots = 9, all[2].slots = 131072;
    all[3].room = 0, all[4].room = 513;
    all[5].clients = 0, all[6].clients = 1025;
    all[7].handles = 0, all[8].handles = 16385;
    all[9].shards = 3, all[10].shards = 128;
    all[11].capacity = (UINT64_C(1) << 40) + 1;
    all[12].serials = 0, all[13].serials = FERRETGOLD_MOST_SERIALS + 1;
    for (int k = 0; k < 14; k++) {
        expect(k, "open", ferretgold_open(&all[k], &cache), wanted[k]);
        expect(k, "the cache is null", cache == NULL, 1);
    }
}

/* A cache of 17 GB, where there is memory for one: this isn't tried under AddressSanitizer. */
static void memory(void) {
#if !defined(__SANITIZE_ADDRESS__)
    ferretgold_cache *cache = NULL;
    ferretgold_config huge = SMALL;
    struct rlimit was, little;
    huge.slots = 65536, huge.room = 512, huge.shards = 64;
    EXPECT(getrlimit(RLIMIT_AS, &was), 0);
    little = was, little.rlim_cur = (rlim_t)1 << 29;
    EXPECT(setrlimit(RLIMIT_AS, &little), 0);
    EXPECT(ferretgold_open(&huge, &cache), FERRETGOLD_OUT_OF_MEMORY);
    EXPECT(cache == NULL, 1);
    EXPECT(setrlimit(RLIMIT_AS, &was), 0);
#endif
}

/* Null where a pointer may not be null, in each call. */
static void nulls(ferretgold_cache *cache, ferretgold_client *client) {
    ferretgold_handle handle = {0, 0, 0, 0};
    ferretgold_client *other = NULL;
    ferretgold_key key;
    ferretgold_stats stats;
    uint64_t number;
    size_t length;
    char byte = 0;
    EXPECT(ferretgold_open(NULL, &cache), FERRETGOLD_NULL);
    EXPECT(ferretgold_open(&SMALL, NULL), FERRETGOLD_NULL);
    EXPECT(ferretgold_client_open(NULL, &other), FERRETGOLD_NULL);
    EXPECT(ferretgold_client_open(cache, NULL), FERRETGOLD_NULL);
    EXPECT(ferretgold_client_close(NULL, client), FERRETGOLD_NULL);
    EXPECT(ferretgold_client_close(cache, NULL), FERRETGOLD_NULL);
    EXPECT(ferretgold_close(NULL, NULL), FERRETGOLD_NULL);
    EXPECT(ferretgold_lookup(NULL, &KEY, &handle), FERRETGOLD_NULL);
    EXPECT(ferretgold_lookup(client, NULL, &handle), FERRETGOLD_NULL);
    EXPECT(ferretgold_lookup(client, &KEY, NULL), FERRETGOLD_NULL);
    EXPECT(ferretgold_reref(NULL, handle, &handle), FERRETGOLD_NULL);
    EXPECT(ferretgold_reref(client, handle, NULL), FERRETGOLD_NULL);
    EXPECT(ferretgold_release(NULL, handle, true, true, NULL), FERRETGOLD_NULL);
    EXPECT(ferretgold_insert(NULL, &KEY, &byte, 1, 1, FERRETGOLD_LOW, NULL), FERRETGOLD_NULL);
    EXPECT(ferretgold_insert(client, NULL, &byte, 1, 1, FERRETGOLD_LOW, NULL), FERRETGOLD_NULL);
    EXPECT(ferretgold_insert(client, &KEY, NULL, 1, 1, FERRETGOLD_LOW, NULL), FERRETGOLD_NULL);
    EXPECT(ferretgold_insert_pinned(NULL, &KEY, &byte, 1, 1, FERRETGOLD_LOW, NULL, &handle),
           FERRETGOLD_NULL);
    EXPECT(ferretgold_insert_pinned(client, NULL, &byte, 1, 1, FERRETGOLD_LOW, NULL, &handle),
           FERRETGOLD_NULL);
    EXPECT(ferretgold_insert_pinned(client, &KEY, NULL, 1, 1, FERRETGOLD_LOW, NULL, &handle),
           FERRETGOLD_NULL);
    EXPECT(ferretgold_insert_pinned(client, &KEY, &byte, 1, 1, FERRETGOLD_LOW, NULL, NULL),
           FERRETGOLD_NULL);
    EXPECT(ferretgold_erase(NULL, &KEY, NULL), FERRETGOLD_NULL);
    EXPECT(ferretgold_erase(client, NULL, NULL), FERRETGOLD_NULL);
    EXPECT(ferretgold_handle_key(NULL, handle, &key), FERRETGOLD_NULL);
    EXPECT(ferretgold_handle_key(client, handle, NULL), FERRETGOLD_NULL);
    EXPECT(ferretgold_value_len(NULL, handle, &length), FERRETGOLD_NULL);
    EXPECT(ferretgold_value_len(client, handle, NULL), FERRETGOLD_NULL);
    EXPECT(ferretgold_read_value(NULL, handle, &byte, 1, &length), FERRETGOLD_NULL);
    EXPECT(ferretgold_read_value(client, handle, NULL, 1, &length), FERRETGOLD_NULL);
    EXPECT(ferretgold_get(NULL, &KEY, &byte, 1, true, &length), FERRETGOLD_NULL);
    EXPECT(ferretgold_get(client, NULL, &byte, 1, true, &length), FERRETGOLD_NULL);
    EXPECT(ferretgold_get(client, &KEY, NULL, 1, true, &length), FERRETGOLD_NULL);
    EXPECT(ferretgold_usage(NULL, &number), FERRETGOLD_NULL);
    EXPECT(ferretgold_usage(client, NULL), FERRETGOLD_NULL);
    EXPECT(ferretgold_pinned_usage(NULL, &number), FERRETGOLD_NULL);
    EXPECT(ferretgold_pinned_usage(client, NULL), FERRETGOLD_NULL);
    EXPECT(ferretgold_occupancy(NULL, &number), FERRETGOLD_NULL);
    EXPECT(ferretgold_occupancy(client, NULL), FERRETGOLD_NULL);
    EXPECT(ferretgold_word(NULL, 0, 0, &number), FERRETGOLD_NULL);
    EXPECT(ferretgold_word(client, 0, 0, NULL), FERRETGOLD_NULL);
    EXPECT(ferretgold_displacement(NULL, 0, 0, &number), FERRETGOLD_NULL);
    EXPECT(ferretgold_displacement(client, 0, 0, NULL), FERRETGOLD_NULL);
    EXPECT(ferretgold_statistics(NULL, &stats), FERRETGOLD_NULL);
    EXPECT(ferretgold_statistics(client, NULL), FERRETGOLD_NULL);
    EXPECT(ferretgold_holds(NULL, handle), 0);
    EXPECT(ferretgold_held(NULL), 0);
}

/* Each call on a handle that the client doesn't hold. */
static void no_handle(int line, ferretgold_client *client, ferretgold_handle handle) {
    picture was = picture_of(client);
    ferretgold_handle more = {5, 5, 5, 5};
    ferretgold_key key = {5, 5};
    bool freed = true;
    size_t length = 5;
    char byte = 5;
    expect(line, "holds", ferretgold_holds(client, handle), 0);
    expect(line, "reref", ferretgold_reref(client, handle, &more), FERRETGOLD_NO_HANDLE);
    expect(line, "release", ferretgold_release(client, handle, true, true, &freed),
           FERRETGOLD_NO_HANDLE);
    expect(line, "key", ferretgold_handle_key(client, handle, &key), FERRETGOLD_NO_HANDLE);
    expect(line, "length", ferretgold_value_len(client, handle, &length), FERRETGOLD_NO_HANDLE);
    expect(line, "value", ferretgold_read_value(client, handle, &byte, 1, &length),
           FERRETGOLD_NO_HANDLE);
    expect(line, "outputs stay",
           more.serial == 5 && key.w0 == 5 && freed && length == 5 && byte == 5, 1);
    same(line, was, client);
}

/* Handles that were released, that another client got, that were never given. */
static void handles(ferretgold_client *client, ferretgold_client *other) {
    ferretgold_handle handle, wild = {99, 0, 0, 0};
    EXPECT(ferretgold_insert_pinned(client, &KEY, "value", 5, 5, FERRETGOLD_HIGH, NULL, &handle),
           FERRETGOLD_OK);
    no_handle(__LINE__, other, handle);
    no_handle(__LINE__, client, wild);
    wild = handle, wild.serial += 1;
    no_handle(__LINE__, client, wild);
    wild = handle, wild.client += 1;
    no_handle(__LINE__, client, wild);
    wild = handle, wild.index = SIZE_MAX;
    no_handle(__LINE__, client, wild);
    EXPECT(ferretgold_holds(client, handle), 1);
    EXPECT(ferretgold_release(client, handle, true, false, NULL), FERRETGOLD_OK);
    no_handle(__LINE__, client, handle);
    wild = handle;
    EXPECT(ferretgold_lookup(client, &KEY, &handle), FERRETGOLD_OK);
    EXPECT(handle.index, wild.index);
    no_handle(__LINE__, client, wild);
    EXPECT(ferretgold_release(client, handle, true, true, NULL), FERRETGOLD_OK);
}

/* Values, charges, priorities, shards and slots out of range. */
static void ranges(ferretgold_client *client) {
    picture was = picture_of(client);
    ferretgold_handle handle = {0, 0, 0, 0};
    ferretgold_inserted inserted = FERRETGOLD_STANDALONE;
    uint64_t word = 5;
    char bytes[17] = {0};
    EXPECT(ferretgold_insert(client, &KEY, bytes, 1, 0, FERRETGOLD_LOW, &inserted),
           FERRETGOLD_NO_CHARGE);
    EXPECT(ferretgold_insert(client, &KEY, bytes, 17, 1, FERRETGOLD_LOW, &inserted),
           FERRETGOLD_TOO_LONG);
    EXPECT(ferretgold_insert(client, &KEY, bytes, 1, 1, (ferretgold_priority)3, &inserted),
           FERRETGOLD_BAD_PRIORITY);
    EXPECT(ferretgold_insert(client, &KEY, bytes, 1, 101, FERRETGOLD_LOW, &inserted),
           FERRETGOLD_TOO_LARGE);
    EXPECT(ferretgold_insert_pinned(client, &KEY, bytes, 1, 0, FERRETGOLD_LOW, &inserted, &handle),
           FERRETGOLD_NO_CHARGE);
    EXPECT(ferretgold_insert_pinned(client, &KEY, bytes, 17, 1, FERRETGOLD_LOW, &inserted, &handle),
           FERRETGOLD_TOO_LONG);
    EXPECT(ferretgold_insert_pinned(client, &KEY, bytes, 1, 1, (ferretgold_priority)3, &inserted,
                                    &handle),
           FERRETGOLD_BAD_PRIORITY);
    EXPECT(ferretgold_insert_pinned(client, &KEY, bytes, 1, 101, FERRETGOLD_LOW, &inserted,
                                    &handle),
           FERRETGOLD_TOO_LARGE);
    EXPECT(ferretgold_word(client, 1, 0, &word), FERRETGOLD_OUT_OF_RANGE);
    EXPECT(ferretgold_word(client, 0, 8, &word), FERRETGOLD_OUT_OF_RANGE);
    EXPECT(ferretgold_displacement(client, 1, 0, &word), FERRETGOLD_OUT_OF_RANGE);
    EXPECT(ferretgold_displacement(client, 0, 8, &word), FERRETGOLD_OUT_OF_RANGE);
    EXPECT(word, 5);
    EXPECT(inserted, FERRETGOLD_STANDALONE);
    same(__LINE__, was, client);
    EXPECT(ferretgold_word(client, 0, 7, &word), FERRETGOLD_OK);
    EXPECT(ferretgold_displacement(client, 0, 7, &word), FERRETGOLD_OK);
}

/* A buffer that is too short, then one that is just long enough; a value without bytes. */
static void buffers(ferretgold_client *client) {
    ferretgold_handle handle;
    char buffer[8] = "........";
    size_t length = 0;
    EXPECT(ferretgold_insert_pinned(client, &KEY, "value", 5, 5, FERRETGOLD_HIGH, NULL, &handle),
           FERRETGOLD_OK);
    EXPECT(ferretgold_read_value(client, handle, buffer, 4, &length), FERRETGOLD_TOO_SHORT);
    EXPECT(length, 5);
    EXPECT(ferretgold_read_value(client, handle, NULL, 0, NULL), FERRETGOLD_TOO_SHORT);
    EXPECT(memcmp(buffer, "........", 8), 0);
    EXPECT(ferretgold_read_value(client, handle, buffer, 5, &length), FERRETGOLD_OK);
    EXPECT(memcmp(buffer, "value...", 8), 0);
    memcpy(buffer, "........", 8);
    length = 7;
    EXPECT(ferretgold_get(client, &OTHER, buffer, 8, true, &length), FERRETGOLD_MISS);
    EXPECT(length, 7);
    EXPECT(ferretgold_get(client, &KEY, buffer, 4, false, &length), FERRETGOLD_TOO_SHORT);
    EXPECT(length, 5);
    EXPECT(ferretgold_get(client, &KEY, NULL, 0, false, NULL), FERRETGOLD_TOO_SHORT);
    EXPECT(memcmp(buffer, "........", 8), 0);
    EXPECT(ferretgold_get(client, &KEY, buffer, 5, true, &length), FERRETGOLD_OK);
    EXPECT(memcmp(buffer, "value...", 8), 0);
    EXPECT(ferretgold_held(client), 1);
    EXPECT(ferretgold_release(client, handle, true, true, NULL), FERRETGOLD_OK);
    EXPECT(ferretgold_insert_pinned(client, &OTHER, NULL, 0, 1, FERRETGOLD_HIGH, NULL, &handle),
           FERRETGOLD_OK);
    EXPECT(ferretgold_read_value(client, handle, NULL, 0, &length), FERRETGOLD_OK);
    EXPECT(length, 0);
    EXPECT(ferretgold_release(client, handle, true, true, NULL), FERRETGOLD_OK);
}

/* As many handles as a client may hold; then all its serials. */
static void used_up(ferretgold_client *client) {
    ferretgold_handle first, second, third = {5, 5, 5, 5};
    EXPECT(ferretgold_insert_pinned(client, &KEY, "value", 5, 5, FERRETGOLD_HIGH, NULL, &first),
           FERRETGOLD_OK);
    EXPECT(ferretgold_reref(client, first, &second), FERRETGOLD_OK);
    picture was = picture_of(client);
    EXPECT(ferretgold_lookup(client, &KEY, &third), FERRETGOLD_HANDLES_FULL);
    EXPECT(ferretgold_lookup(client, &OTHER, &third), FERRETGOLD_HANDLES_FULL);
    EXPECT(ferretgold_reref(client, first, &third), FERRETGOLD_HANDLES_FULL);
    EXPECT(ferretgold_insert_pinned(client, &OTHER, "", 0, 1, FERRETGOLD_LOW, NULL, &third),
           FERRETGOLD_HANDLES_FULL);
    EXPECT(third.serial, 5);
    same(__LINE__, was, client);
    /* The entry that is held takes 5 of 100: one of 96 doesn't fit beside it, and the insertion whose
     * evictions were in vain used a serial. */
    EXPECT(ferretgold_insert(client, &OTHER, "", 0, 96, FERRETGOLD_LOW, NULL),
           FERRETGOLD_CAPACITY_FULL);
    EXPECT(ferretgold_serials_left(client), was.left - 1);
    EXPECT(ferretgold_release(client, second, true, false, NULL), FERRETGOLD_OK);
    while (ferretgold_serials_left(client) != 0) {
        EXPECT(ferretgold_lookup(client, &KEY, &second), FERRETGOLD_OK);
        EXPECT(ferretgold_release(client, second, true, false, NULL), FERRETGOLD_OK);
    }
    was = picture_of(client);
    EXPECT(ferretgold_lookup(client, &KEY, &third), FERRETGOLD_SPENT);
    EXPECT(ferretgold_reref(client, first, &third), FERRETGOLD_SPENT);
    EXPECT(ferretgold_insert(client, &OTHER, "", 0, 1, FERRETGOLD_LOW, NULL), FERRETGOLD_SPENT);
    EXPECT(ferretgold_insert_pinned(client, &OTHER, "", 0, 1, FERRETGOLD_LOW, NULL, &third),
           FERRETGOLD_SPENT);
    same(__LINE__, was, client);
    EXPECT(ferretgold_release(client, first, true, true, NULL), FERRETGOLD_OK);
}

/* Clients that are out or idle, that hold handles, that another cache has, that there are no more
 * of; handles of another cache. */
static void closings(void) {
    ferretgold_cache *one, *two;
    ferretgold_client *a, *b, *c = NULL, *foreign;
    ferretgold_handle handle;
    ferretgold_totals totals = {5, 5, 5, 5};
    EXPECT(ferretgold_open(&SMALL, &one), FERRETGOLD_OK);
    EXPECT(ferretgold_open(&SMALL, &two), FERRETGOLD_OK);
    EXPECT(ferretgold_client_open(one, &a), FERRETGOLD_OK);
    EXPECT(ferretgold_client_open(one, &b), FERRETGOLD_OK);
    EXPECT(ferretgold_client_open(one, &c), FERRETGOLD_NO_CLIENT);
    EXPECT(c == NULL, 1);
    EXPECT(ferretgold_client_open(two, &foreign), FERRETGOLD_OK);
    EXPECT(ferretgold_client_close(one, foreign), FERRETGOLD_OTHER_CACHE);
    EXPECT(ferretgold_insert_pinned(a, &KEY, "value", 5, 5, FERRETGOLD_HIGH, NULL, &handle),
           FERRETGOLD_OK);
    EXPECT(ferretgold_client_close(one, a), FERRETGOLD_HANDLES_OUT);
    EXPECT(ferretgold_client_close(two, a), FERRETGOLD_OTHER_CACHE);
    no_handle(__LINE__, foreign, handle);
    EXPECT(ferretgold_holds(a, handle), 1);
    EXPECT(ferretgold_release(a, handle, true, false, NULL), FERRETGOLD_OK);
    EXPECT(ferretgold_client_close(one, a), FERRETGOLD_OK);
    EXPECT(ferretgold_client_close(one, a), FERRETGOLD_NO_CLIENT);
    EXPECT(ferretgold_lookup(a, &KEY, &handle), FERRETGOLD_NO_CLIENT);
    EXPECT(ferretgold_close(one, &totals), FERRETGOLD_CLIENTS_OUT);
    EXPECT(totals.usage, 5);
    EXPECT(ferretgold_lookup(b, &KEY, &handle), FERRETGOLD_OK);
    EXPECT(ferretgold_release(b, handle, true, false, NULL), FERRETGOLD_OK);
    EXPECT(ferretgold_client_open(one, &a), FERRETGOLD_OK);
    EXPECT(ferretgold_client_close(one, a), FERRETGOLD_OK);
    EXPECT(ferretgold_client_close(one, b), FERRETGOLD_OK);
    EXPECT(ferretgold_close(one, &totals), FERRETGOLD_OK);
    EXPECT(totals.usage, 5);
    EXPECT(totals.slot_charges, 5);
    EXPECT(totals.occupied, 1);
    EXPECT(totals.slot_count, 1);
    EXPECT(ferretgold_close(two, NULL), FERRETGOLD_CLIENTS_OUT);
    EXPECT(ferretgold_client_close(two, foreign), FERRETGOLD_OK);
    EXPECT(ferretgold_close(two, NULL), FERRETGOLD_OK);
}

int main(void) {
    ferretgold_cache *cache;
    ferretgold_client *client, *other;
    configurations();
    memory();
    EXPECT(ferretgold_open(&SMALL, &cache), FERRETGOLD_OK);
    EXPECT(ferretgold_client_open(cache, &client), FERRETGOLD_OK);
    EXPECT(ferretgold_client_open(cache, &other), FERRETGOLD_OK);
    nulls(cache, client);
    handles(client, other);
    ranges(client);
    buffers(client);
    used_up(client);
    EXPECT(ferretgold_client_close(cache, client), FERRETGOLD_OK);
    EXPECT(ferretgold_client_close(cache, other), FERRETGOLD_OK);
    EXPECT(ferretgold_close(cache, NULL), FERRETGOLD_OK);
    closings();
    printf("misuse: %d answers are wrong\n", failed);
    return failed == 0 ? 0 : 1;
}
