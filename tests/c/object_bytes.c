/* Bytes as objects: what is put in is what a handle shows, and each copy is freed once. */
#include "object_test.h"

#include <stddef.h>
#include <stdlib.h>
#include <string.h>

enum { MOST = 20 << 20 };

static const ferretgold_key KEY = {1, 5};

static ferretgold_object_cache *opened(ferretgold_deleter deleter) {
    ferretgold_object_config config = small_cache();
    ferretgold_object_cache *cache = NULL;
    config.strict = true;
    EXPECT(ferretgold_object_open(&config, deleter, NULL, &cache), FERRETGOLD_OK);
    return cache;
}

static int insert(ferretgold_object_cache *cache, const void *bytes, size_t length,
                  uint32_t charge) {
    ferretgold_inserted inserted = 9;
    const ferretgold_status status = ferretgold_object_insert_bytes(
        cache, &KEY, bytes, length, charge, FERRETGOLD_LOW, &inserted);
    return status == FERRETGOLD_OK ? (int)inserted : (int)status;
}

static const ferretgold_object_handle *held(ferretgold_object_cache *cache) {
    const ferretgold_object_handle *handle = NULL;
    EXPECT(ferretgold_object_lookup(cache, &KEY, &handle), FERRETGOLD_OK);
    return handle;
}

static void release(ferretgold_object_cache *cache, const ferretgold_object_handle *handle) {
    EXPECT(ferretgold_object_release(cache, handle, true, false, NULL), FERRETGOLD_OK);
}

/* Values of all lengths, which stay while they are held. */
static void lengths(void) {
    static const size_t ALL[] = {0, 1, 15, 16, 17, 4096, 4097, MOST};
    uint8_t *value = malloc(MOST);
    ferretgold_object_cache *cache = opened(ferretgold_object_free_bytes);
    const size_t blocks = heap_blocks, bytes = heap_bytes;
    for (size_t k = 0; k < sizeof ALL / sizeof *ALL; k++) {
        size_t length = SIZE_MAX;
        memset(value, (int)k + 1, ALL[k]);
        EXPECT(insert(cache, ALL[k] != 0 ? value : NULL, ALL[k], 10), FERRETGOLD_PLACED);
        EXPECT(heap_blocks - blocks, 1);
        EXPECT(heap_bytes - bytes, ALL[k] + 16);
        const ferretgold_object_handle *handle = held(cache);
        const uint8_t *at = ferretgold_object_bytes(handle, &length);
        EXPECT(ferretgold_object_bytes(handle, NULL) == at, true);
        EXPECT(length, ALL[k]);
        EXPECT(at != value && (uintptr_t)at % _Alignof(max_align_t) == 0, true);
        EXPECT(ferretgold_object_erase(cache, &KEY, NULL), FERRETGOLD_OK);
        EXPECT(memcmp(at, value, ALL[k]), 0);
        release(cache, handle);
        EXPECT(heap_blocks, blocks);
    }
    EXPECT(ferretgold_object_close(cache), FERRETGOLD_OK);
    free(value);
}

/* Of what isn't placed nothing is left; nor of what is, once the cache is closed. */
static void refusals(void) {
    const size_t was = heap_blocks;
    ferretgold_object_cache *cache = opened(ferretgold_object_free_bytes);
    const size_t blocks = heap_blocks;
    EXPECT(insert(NULL, "abc", 3, 10), FERRETGOLD_NULL);
    EXPECT(insert(cache, NULL, 3, 10), FERRETGOLD_NULL);
    EXPECT(ferretgold_object_insert_bytes(cache, NULL, "abc", 3, 1, FERRETGOLD_LOW, NULL),
           FERRETGOLD_NULL);
    EXPECT(insert(cache, "abc", 3, 0), FERRETGOLD_NO_CHARGE);
    EXPECT(insert(cache, "abc", 3, 101), FERRETGOLD_TOO_LARGE);
    EXPECT(insert(cache, "abc", SIZE_MAX, 0), FERRETGOLD_OUT_OF_MEMORY);
    EXPECT(insert(cache, "abc", SIZE_MAX - 15, 0), FERRETGOLD_OUT_OF_MEMORY);
    heap_left = 0;
    EXPECT(insert(cache, "abc", 3, 10), FERRETGOLD_OUT_OF_MEMORY);
    heap_left = SIZE_MAX;
    EXPECT(heap_blocks, blocks);
    EXPECT(insert(cache, "abc", 3, 10), FERRETGOLD_PLACED);
    EXPECT(insert(cache, "defg", 4, 10), FERRETGOLD_DROPPED);
    EXPECT(heap_blocks - blocks, 1);
    EXPECT(ferretgold_object_insert_bytes(cache, &KEY, "h", 1, 1, FERRETGOLD_LOW, NULL),
           FERRETGOLD_OK);
    EXPECT(heap_blocks - blocks, 1);
    const ferretgold_object_handle *handle = held(cache);
    EXPECT(memcmp(ferretgold_object_bytes(handle, NULL), "abc", 3), 0);
    release(cache, handle);
    EXPECT(ferretgold_object_close(cache), FERRETGOLD_OK);
    EXPECT(heap_blocks, was);
}

/* A deleter of several kinds, which leaves bytes to the library. */
static void free_kind(void *context, const ferretgold_key *key, void *object, uint16_t kind) {
    if (kind == 0) {
        ferretgold_object_free_bytes(context, key, object, kind);
    }
}

/* What isn't bytes is shown as none. */
static void kinds(void) {
    const size_t was = heap_blocks;
    ferretgold_object_cache *cache = opened(free_kind);
    int other = 0;
    void *const all[] = {&other, NULL};
    for (uint16_t k = 0; k < 2; k++) {
        size_t length = 7;
        EXPECT(ferretgold_object_insert(cache, &KEY, all[k], (uint16_t)(1 - k), 10,
                                        FERRETGOLD_LOW, NULL), FERRETGOLD_OK);
        const ferretgold_object_handle *handle = held(cache);
        EXPECT(ferretgold_object_bytes(handle, &length) == NULL && length == 7, true);
        release(cache, handle);
        EXPECT(ferretgold_object_erase(cache, &KEY, NULL), FERRETGOLD_OK);
    }
    EXPECT(ferretgold_object_bytes(NULL, NULL) == NULL, true);
    EXPECT(insert(cache, "abc", 3, 10), FERRETGOLD_PLACED);
    EXPECT(ferretgold_object_close(cache), FERRETGOLD_OK);
    EXPECT(heap_blocks, was);
}

void object_bytes(void) {
    lengths();
    refusals();
    kinds();
}
