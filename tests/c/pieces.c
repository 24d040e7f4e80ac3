/* What a caller's functions hear while its cache of objects is saved: how many bytes an object has, once; then its
 * bytes from the first to the last, each written before the next ones are asked for, and nothing once one of
 * them failed. The object stays until then, though it was erased. Also of more bytes than four bytes count. And
 * how much memory a load takes. Linked with heap.c. */
enum { MOST_FILE = 1 << 22, SUM = 8 };

#include "ferretgold_file.h"
#include "file_image.h"
#include "heap.h"

#define XXH_INLINE_ALL
#include <xxhash.h>

/* An object of so many bytes, of which only some can be copied; and what was heard of it. */
typedef struct listener {
    ferretgold_object_cache *cache;
    uint64_t length, most;
    uint64_t copied, written;
    unsigned asked, deleted;
    bool is_over;
} listener;

static uint64_t size(void *context, const ferretgold_object_handle *handle) {
    listener *it = context;
    EXPECT(it->asked++, 0);
    EXPECT(it->written == BEGIN && it->copied == 0, true);
    EXPECT(ferretgold_object_erase(it->cache, &handle->key, NULL), FERRETGOLD_OK);
    return it->length;
}

static bool copy(void *context, const ferretgold_object_handle *handle, uint64_t offset, void *bytes,
                 size_t count) {
    listener *it = context;
    EXPECT(handle->object == it && handle->kind == 7 && it->asked == 1, true);
    EXPECT(it->deleted || it->is_over, false);
    EXPECT(offset == it->copied && it->written == BEGIN + HEAD + offset, true);
    EXPECT(count > 0 && count <= it->length - offset, true);
    memset(bytes, (int)(offset >> 12), count);
    it->is_over = count > it->most - offset;
    it->copied += it->is_over ? 0 : count;
    return !it->is_over;
}

static bool write_piece(void *to, const void *bytes, size_t count) {
    listener *it = to;
    EXPECT(it->is_over, false);
    const bool is_left_out = it->length == UINT64_MAX;
    const bool is_behind = is_left_out || it->written >= BEGIN + HEAD + it->length + SUM;
    EXPECT(it->deleted, it->asked > 0 && is_behind);
    if (it->written == BEGIN && !is_left_out) {
        EXPECT(number_at((const uint8_t *)bytes + 24, 8) == it->length, true);
    }
    it->written += count;
    return true;
}

static void delete_one(void *context, const ferretgold_key *key, void *object, uint16_t kind) {
    EXPECT(key->w0 == 1 && object == context && kind == 7, true);
    ((listener *)context)->deleted += 1;
}

/* Saves a cache with one object. Whether that is in the last slot. */
static bool saves(uint64_t seed, uint64_t length, uint64_t most) {
    static const ferretgold_key key = {1, 2};
    const ferretgold_object_handle *last = NULL;
    const bool is_left_out = length == UINT64_MAX, is_whole = is_left_out || most >= length;
    ferretgold_object_config config = FERRETGOLD_OBJECT_CONFIG;
    listener it = {.length = length, .most = most};
    uint64_t saved = 77;
    config.slots = 8, config.shards = 1, config.seed = seed;
    EXPECT(ferretgold_object_open(&config, delete_one, &it, &it.cache), FERRETGOLD_OK);
    EXPECT(ferretgold_object_insert(it.cache, &key, &it, 7, 1, FERRETGOLD_LOW, NULL), FERRETGOLD_OK);
    if (ferretgold_object_pin_at(it.cache, 0, 7, &last) == FERRETGOLD_OK) {
        EXPECT(ferretgold_object_release(it.cache, last, false, false, NULL), FERRETGOLD_OK);
    }
    EXPECT(ferretgold_object_save(it.cache, size, copy, &it, write_piece, &it, &saved),
           is_whole ? FERRETGOLD_FILE_OK : FERRETGOLD_FILE_WRITE);
    EXPECT(saved, is_whole && !is_left_out);
    EXPECT(it.asked == 1 && it.deleted == 1, true);
    EXPECT(is_left_out ? it.copied == 0 : it.copied <= most && it.copied >= most >> 32 << 32, true);
    if (is_whole) {
        EXPECT(it.copied == (is_left_out ? 0 : length), true);
        EXPECT(it.written == BEGIN + (is_left_out ? 0 : HEAD + length + SUM) + HEAD, true);
    }
    EXPECT(ferretgold_object_close(it.cache), FERRETGOLD_OK);
    EXPECT(it.deleted, 1);
    return last != NULL;
}

static bool is_made(void *length, const ferretgold_object_saved *saved) {
    return saved->length == *(size_t *)length;
}

/* Loads a file of one object of so many bytes, and of one that says that it has many more. */
static void loads(size_t length) {
    static image file;
    static const uint8_t bytes[MOST_FILE] = {0};
    static const ferretgold_key key = {1, 2};
    ferretgold_object_config config = FERRETGOLD_OBJECT_CONFIG;
    ferretgold_object_cache *cache = NULL;
    config.slots = 8, config.shards = 1;
    EXPECT(ferretgold_object_open(&config, ferretgold_object_free_bytes, NULL, &cache), FERRETGOLD_OK);
    EXPECT(ferretgold_object_insert_bytes(cache, &key, bytes, length, 1, FERRETGOLD_LOW, NULL), FERRETGOLD_OK);
    empty_image(&file);
    file.calls_left = SIZE_MAX;
    EXPECT(ferretgold_object_save(cache, NULL, NULL, NULL, write_image, &file, NULL), FERRETGOLD_FILE_OK);
    for (int is_wrong = 0; is_wrong < 2; is_wrong++) {
        const size_t was = heap_most = heap_bytes;
        begin_image(&file);
        EXPECT(ferretgold_object_load(read_image, &file, is_made, &length, NULL),
               is_wrong ? FERRETGOLD_FILE_DAMAGED : FERRETGOLD_FILE_OK);
        EXPECT(heap_most - was <= (2 * file.length > 65536 ? 2 * file.length : 65536), true);
        EXPECT(heap_bytes, was);
        set_number(file.bytes + BEGIN + 24, 8, UINT64_C(1) << 62);
        set_number(file.bytes + BEGIN + HEAD - SUM, SUM, XXH64(file.bytes + BEGIN, HEAD - SUM, 1));
    }
    EXPECT(ferretgold_object_close(cache), FERRETGOLD_OK);
}

int main(void) {
    static const uint64_t lengths[] = {0, 1, 4095, 4096, 4097, 3 * 4096 + 5};
    unsigned last = 0;
    for (uint64_t seed = 1; seed <= 16; seed++) {
        for (size_t k = 0; k < sizeof lengths / sizeof *lengths; k++) {
            (void)saves(seed, lengths[k], lengths[k]);
            last += saves(seed, lengths[k], lengths[k] / 2);
        }
        (void)saves(seed, UINT64_MAX, 0);
    }
    EXPECT(last > 0, true);
    (void)saves(1, (UINT64_C(1) << 32) + 100000, (UINT64_C(1) << 32) + 50000);
    for (size_t length = 1; length < MOST_FILE / 2; length = 2 * length + length / 3) {
        loads(length);
    }
    EXPECT(heap_blocks, 0);
    return faults != 0;
}
