/* Caches of objects and files, over ferretgold_object.h. It is tested, not proved.
 *
 * How many entries a walk finds isn't known before, so the file's end says it. Each checksum has its
 * entry's number in it, and that of a head is judged before its length is believed. */
#define _DEFAULT_SOURCE /* for htole64 */

#include "file.h"
#include "walk.h"

#define XXH_INLINE_ALL
#include <xxhash.h>

#include <endian.h>
#include <stddef.h>
#include <stdlib.h>
#include <string.h>

enum {
    OBJECT_VERSION = 2,
    BYTES_KIND = 0,     /* of objects that are bytes */
    PIECE = 4096,       /* bytes of an object are copied by so many */
    FIRST_ROOM = 65536  /* for bytes that are read */
};

/* An entry as it stands in a file before its bytes; with a charge of 0 the end. */
typedef struct object_head {
    uint64_t w0, w1;
    uint32_t charge;
    uint16_t kind;
    uint16_t zero;
    uint64_t length;
    uint64_t sum;
} object_head;

_Static_assert(sizeof(object_head) == 40, "this is the format's");

static uint64_t head_sum(const object_head *head, uint64_t number) {
    return htole64(XXH64(head, offsetof(object_head, sum), number));
}

/* ---- Saving ---------------------------------------------------------------------------------- */

/* How objects are written, and where to. */
typedef struct object_sink {
    ferretgold_object_size *size;
    ferretgold_object_copy *copy;
    void *context;
    ferretgold_write *write;
    void *to;
    uint64_t entries; /* so far */
    bool could;       /* whether all of them were written whole */
} object_sink;

/* Of objects that are bytes. */
static uint64_t bytes_size(void *context, const ferretgold_object_handle *handle) {
    size_t length = 0;
    (void)context;
    if (handle->kind != BYTES_KIND) {
        return UINT64_MAX;
    }
    (void)ferretgold_object_bytes(handle, &length);
    return length;
}

static bool bytes_copy(void *context, const ferretgold_object_handle *handle, uint64_t offset,
                       void *bytes, size_t count) {
    (void)context;
    memcpy(bytes, (const uint8_t *)ferretgold_object_bytes(handle, NULL) + offset, count);
    return true;
}

static bool write_head(object_sink *it, const ferretgold_key *key, uint32_t charge, uint16_t kind,
                       uint64_t length) {
    object_head head = {htole64(key->w0), htole64(key->w1), htole32(charge), htole16(kind), 0,
                        htole64(length), 0};
    head.sum = head_sum(&head, it->entries + 1);
    return it->write(it->to, &head, sizeof head);
}

/* Writes the bytes of an object, and their checksum. */
static bool write_bytes(object_sink *it, const ferretgold_object_handle *handle, uint64_t length) {
    uint8_t piece[PIECE];
    XXH64_state_t state;
    (void)XXH64_reset(&state, it->entries + 1);
    for (uint64_t at = 0; at < length; at += PIECE) {
        const size_t count = length - at < PIECE ? (size_t)(length - at) : PIECE;
        if (!it->copy(it->context, handle, at, piece, count) || !it->write(it->to, piece, count)) {
            return false;
        }
        (void)XXH64_update(&state, piece, count);
    }
    const uint64_t sum = htole64(XXH64_digest(&state));
    return it->write(it->to, &sum, sizeof sum);
}

/* Writes the entry of a handle, unless it is left out. */
static bool write_object(object_sink *it, const ferretgold_object_handle *handle) {
    const uint64_t length = it->size(it->context, handle);
    if (length == UINT64_MAX) {
        return true;
    }
    if (!write_head(it, &handle->key, handle->charge, handle->kind, length)
        || !write_bytes(it, handle, length)) {
        return false;
    }
    it->entries += 1;
    return true;
}

/* Writes an entry that a walk came to. The walk doesn't tell whether it ended by that: it may be in the last slot. */
static bool write_visited(void *to, const ferretgold_object_handle *handle) {
    object_sink *it = to;
    it->could = write_object(it, handle);
    return it->could;
}

static ferretgold_file_status write_all(ferretgold_object_cache *cache, object_sink *it) {
    static const ferretgold_key no_key = {0, 0};
    if (!file_begun(OBJECT_VERSION, 0, it->write, it->to)) {
        return FERRETGOLD_FILE_WRITE;
    }
    if (walked(cache, write_visited, it) > FERRETGOLD_MISS) {
        return FERRETGOLD_FILE_BUSY;
    }
    return it->could && write_head(it, &no_key, 0, 0, it->entries) ? FERRETGOLD_FILE_OK
                                                                   : FERRETGOLD_FILE_WRITE;
}

ferretgold_file_status ferretgold_object_save(ferretgold_object_cache *cache,
                                              ferretgold_object_size *size,
                                              ferretgold_object_copy *copy, void *context,
                                              ferretgold_write *write, void *to, uint64_t *saved) {
    object_sink it = {size, copy, context, write, to, 0, true};
    if (cache == NULL || write == NULL || (size == NULL) != (copy == NULL)) {
        return FERRETGOLD_FILE_NULL;
    }
    if (size == NULL) {
        it.size = bytes_size;
        it.copy = bytes_copy;
    }
    const ferretgold_file_status status = write_all(cache, &it);
    if (saved != NULL) {
        *saved = it.entries;
    }
    return status;
}

/* ---- Loading --------------------------------------------------------------------------------- */

/* Bytes that were read, and how many there is room for. */
typedef struct object_room {
    uint8_t *bytes;
    size_t length, room;
} object_room;

static bool has_grown(object_room *it) {
    const size_t room = it->room == 0 ? FIRST_ROOM : 2 * it->room;
    uint8_t *bytes = room > it->room ? realloc(it->bytes, room) : NULL;
    if (bytes == NULL) {
        return false;
    }
    it->bytes = bytes;
    it->room = room;
    return true;
}

/* Reads so many bytes. There is more room only once what there was is full. */
static ferretgold_file_status fill(const file_source *from, object_room *it, uint64_t length) {
    for (it->length = 0; it->length < length;) {
        if (it->length == it->room && !has_grown(it)) {
            return FERRETGOLD_FILE_MEMORY;
        }
        const size_t room = it->room - it->length;
        const size_t count = length - it->length < room ? (size_t)(length - it->length) : room;
        const ferretgold_file_status status = file_bytes(from, it->bytes + it->length, count);
        if (status != FERRETGOLD_FILE_OK) {
            return status;
        }
        it->length += count;
    }
    return FERRETGOLD_FILE_OK;
}

static ferretgold_file_status read_head(const file_source *from, uint64_t number,
                                        object_head *head) {
    const ferretgold_file_status status = file_bytes(from, head, sizeof *head);
    if (status == FERRETGOLD_FILE_OK && (head->sum != head_sum(head, number) || head->zero != 0)) {
        return FERRETGOLD_FILE_DAMAGED;
    }
    return status;
}

static ferretgold_file_status read_bytes(const file_source *from, uint64_t number, uint64_t length,
                                         object_room *bytes) {
    uint64_t sum = 0;
    ferretgold_file_status status = fill(from, bytes, length);
    if (status == FERRETGOLD_FILE_OK) {
        status = file_bytes(from, &sum, sizeof sum);
    }
    if (status == FERRETGOLD_FILE_OK
        && sum != htole64(XXH64(bytes->bytes, bytes->length, number))) {
        return FERRETGOLD_FILE_DAMAGED;
    }
    return status;
}

/* Whether a head says well that the file ends behind so many entries. */
static bool is_end_of(const object_head *head, uint64_t entries) {
    return head->w0 == 0 && head->w1 == 0 && head->kind == 0 && le64toh(head->length) == entries;
}

/* Reads entries as far as they can be read, and has an object made of each. */
static ferretgold_file_status read_objects(const file_source *from, ferretgold_object_make *make,
                                           void *context, object_room *bytes,
                                           ferretgold_loaded *loaded) {
    object_head head;
    for (;; loaded->entries++) {
        const uint64_t number = loaded->entries + 1;
        ferretgold_file_status status = read_head(from, number, &head);
        if (status == FERRETGOLD_FILE_OK && head.charge == 0) {
            return is_end_of(&head, loaded->entries) ? file_end(from) : FERRETGOLD_FILE_DAMAGED;
        }
        if (status == FERRETGOLD_FILE_OK) {
            status = read_bytes(from, number, le64toh(head.length), bytes);
        }
        if (status != FERRETGOLD_FILE_OK) {
            return status;
        }
        const ferretgold_object_saved saved = {{le64toh(head.w0), le64toh(head.w1)}, bytes->bytes,
                                               bytes->length, le32toh(head.charge),
                                               le16toh(head.kind)};
        loaded->left += make(context, &saved);
    }
}

ferretgold_file_status ferretgold_object_load(ferretgold_read *read, void *from,
                                              ferretgold_object_make *make, void *context,
                                              ferretgold_loaded *loaded) {
    const file_source source = {read, from};
    object_room bytes = {NULL, 0, 0};
    ferretgold_loaded it = {0, 0, 0};
    uint64_t zero = 0;
    if (read == NULL || make == NULL) {
        return FERRETGOLD_FILE_NULL;
    }
    ferretgold_file_status status = file_begin(&source, OBJECT_VERSION, &zero);
    if (status == FERRETGOLD_FILE_OK) {
        status = zero == 0 ? read_objects(&source, make, context, &bytes, &it)
                           : FERRETGOLD_FILE_DAMAGED;
    }
    free(bytes.bytes);
    it.lost = it.entries - it.left;
    if (loaded != NULL) {
        *loaded = it;
    }
    return status;
}
