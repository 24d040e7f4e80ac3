/* Bytes as objects: a block of malloc, which begins with how many they are. */
#include "ferretgold_object.h"

#include <stddef.h>
#include <stdlib.h>
#include <string.h>

enum { KIND = 0 };

typedef struct block {
    size_t length;
    _Alignas(max_align_t) unsigned char bytes[];
} block;

/* A copy; null if memory is refused, or no block is so long. */
static block *copied(const void *bytes, size_t length) {
    block *it = length <= SIZE_MAX - sizeof(block) ? malloc(sizeof(block) + length) : NULL;
    if (it == NULL) {
        return NULL;
    }
    it->length = length;
    if (length != 0) {
        memcpy(it->bytes, bytes, length);
    }
    return it;
}

void ferretgold_object_free_bytes(void *context, const ferretgold_key *key, void *object,
                                  uint16_t kind) {
    (void)context, (void)key, (void)kind;
    free(object);
}

ferretgold_status ferretgold_object_insert_bytes(ferretgold_object_cache *cache,
                                                 const ferretgold_key *key, const void *bytes,
                                                 size_t length, uint32_t charge,
                                                 ferretgold_priority priority,
                                                 ferretgold_inserted *inserted) {
    if (cache == NULL || key == NULL || (bytes == NULL && length != 0)) {
        return FERRETGOLD_NULL;
    }
    block *it = copied(bytes, length);
    if (it == NULL) {
        return FERRETGOLD_OUT_OF_MEMORY;
    }
    ferretgold_inserted came = FERRETGOLD_DROPPED;
    const ferretgold_status status =
        ferretgold_object_insert(cache, key, it, KIND, charge, priority, &came);
    if (status != FERRETGOLD_OK || came != FERRETGOLD_PLACED) {
        free(it);
    }
    if (status == FERRETGOLD_OK && inserted != NULL) {
        *inserted = came;
    }
    return status;
}

const void *ferretgold_object_bytes(const ferretgold_object_handle *handle, size_t *length) {
    if (handle == NULL || handle->object == NULL || handle->kind != KIND) {
        return NULL;
    }
    const block *it = handle->object;
    if (length != NULL) {
        *length = it->length;
    }
    return it->bytes;
}
