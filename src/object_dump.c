/* Dumps of a cache of objects that runs, and warm starts from them, over ferretgold_file.h. They are
 * tested, not proved. */
#include "file.h"

#include <fcntl.h>

/* ---- Dumping --------------------------------------------------------------------------------- */

/* A cache that is dumped, and how. */
typedef struct object_dump {
    ferretgold_object_cache *cache;
    ferretgold_object_size *size;
    ferretgold_object_copy *copy;
    void *context;
    uint64_t *saved;
} object_dump;

static ferretgold_file_status save_to(void *dump, FILE *to) {
    const object_dump *it = dump;
    return ferretgold_object_save(it->cache, it->size, it->copy, it->context, file_write, to, it->saved);
}

ferretgold_file_status ferretgold_object_dump(ferretgold_object_cache *cache,
                                              ferretgold_object_size *size,
                                              ferretgold_object_copy *copy, void *context,
                                              const char *path, uint64_t *saved) {
    object_dump it = {cache, size, copy, context, saved};
    if (cache == NULL || path == NULL || (size == NULL) != (copy == NULL)) {
        return FERRETGOLD_FILE_NULL;
    }
    return file_dumped(path, save_to, &it);
}

/* ---- Starting warm --------------------------------------------------------------------------- */

static size_t read_from(void *file, void *bytes, size_t count, bool *could) {
    const size_t is = fread(bytes, 1, count, file);
    *could = ferror(file) == 0;
    return is;
}

static bool pass_over(void *context, const ferretgold_object_saved *saved) {
    (void)context;
    (void)saved;
    return true;
}

/* How entries come back. */
typedef struct maker {
    ferretgold_object_cache *cache;
    ferretgold_object_make *make;
    void *context;
} maker;

/* Of objects that are bytes. */
static bool make_bytes(void *cache, const ferretgold_object_saved *saved) {
    ferretgold_inserted inserted = FERRETGOLD_DROPPED;
    return ferretgold_object_insert_bytes(cache, &saved->key, saved->bytes, saved->length, saved->charge,
                                          FERRETGOLD_LOW, &inserted)
               == FERRETGOLD_OK
           && inserted == FERRETGOLD_PLACED;
}

/* Makes an entry in place of an earlier one of its key. */
static bool make_last(void *to, const ferretgold_object_saved *saved) {
    const maker *it = to;
    (void)ferretgold_object_erase(it->cache, &saved->key, NULL);
    return it->make(it->context, saved);
}

ferretgold_file_status ferretgold_object_warm(ferretgold_object_cache *cache, const char *path,
                                              ferretgold_object_make *make, void *context,
                                              ferretgold_loaded *loaded) {
    maker it = {cache, make, context};
    if (cache == NULL || path == NULL) {
        return FERRETGOLD_FILE_NULL;
    }
    if (make == NULL) {
        it = (maker){cache, make_bytes, cache};
    }
    FILE *file = file_opened(path, O_RDONLY, "r");
    if (file == NULL) {
        return FERRETGOLD_FILE_READ;
    }
    ferretgold_file_status status = ferretgold_object_load(read_from, file, pass_over, NULL, NULL);
    if (status == FERRETGOLD_FILE_OK) {
        rewind(file);
        status = ferretgold_object_load(read_from, file, make_last, &it, loaded);
    }
    (void)fclose(file);
    return status;
}
