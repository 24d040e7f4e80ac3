/* Caches of bytes and files, over ferretgold_closed.h, ferretgold_image.h and walks, with what files of
 * objects share. It is tested, not proved. Which entries of a file come in is chosen.c's.
 *
 * An entry's checksum has its number in it, so that no two entries can change places, and the file's
 * begin says how many there are: what isn't refused is what was saved, as far as 64 bits tell. */
#define _DEFAULT_SOURCE /* for htole64 */

#include "chosen.h"
#include "file.h"
#include "limits.h"
#include "opening.h"

#define XXH_INLINE_ALL
#include <xxhash.h>

#include <endian.h>
#include <stddef.h>
#include <string.h>

enum { FILE_VERSION = 1 };

static const char KIND[8] = {'F', 'E', 'R', 'R', 'E', 'T', 'G', '1'};

/* How a file begins. Its numbers, and those of an entry, have their lowest byte first. */
typedef struct begin {
    char kind[sizeof KIND];
    uint32_t version;
    uint32_t zero;
    uint64_t entries;
    uint64_t sum;
} begin;

/* An entry as it stands in a file. */
typedef struct file_entry {
    uint64_t w0, w1;
    uint32_t charge;
    uint32_t uses;
    uint32_t length;
    uint32_t zero;
    uint64_t sum;
    uint8_t value[MOST_VALUE];
} file_entry;

enum { HEAD = offsetof(file_entry, value) };

_Static_assert(sizeof(begin) == 32 && HEAD == 40, "these are the format's");

/* ---- What stands before the entries, and behind them ----------------------------------------- */

static uint64_t begin_sum(const begin *it) {
    return htole64(XXH64(it, offsetof(begin, sum), 0));
}

bool file_begun(uint32_t version, uint64_t entries, ferretgold_write *write, void *context) {
    begin it = {.version = htole32(version), .entries = htole64(entries)};
    memcpy(it.kind, KIND, sizeof KIND);
    it.sum = begin_sum(&it);
    return write(context, &it, sizeof it);
}

ferretgold_file_status file_bytes(const file_source *from, void *bytes, size_t count) {
    bool could = true;
    const size_t read = count == 0 ? 0 : from->read(from->context, bytes, count, &could);
    if (!could) {
        return FERRETGOLD_FILE_READ;
    }
    return read == count ? FERRETGOLD_FILE_OK : FERRETGOLD_FILE_DAMAGED;
}

ferretgold_file_status file_begin(const file_source *from, uint32_t version, uint64_t *entries) {
    begin it = {.version = 0};
    const ferretgold_file_status status = file_bytes(from, &it, sizeof it);
    if (status == FERRETGOLD_FILE_READ) {
        return status;
    }
    if (memcmp(it.kind, KIND, sizeof KIND) != 0) {
        return FERRETGOLD_FILE_KIND;
    }
    if (status != FERRETGOLD_FILE_OK || it.sum != begin_sum(&it)) {
        return FERRETGOLD_FILE_DAMAGED;
    }
    if (le32toh(it.version) != version) {
        return FERRETGOLD_FILE_VERSION;
    }
    *entries = le64toh(it.entries);
    return it.zero == 0 ? FERRETGOLD_FILE_OK : FERRETGOLD_FILE_DAMAGED;
}

ferretgold_file_status file_end(const file_source *from) {
    uint8_t more = 0;
    const ferretgold_file_status status = file_bytes(from, &more, 1);
    if (status == FERRETGOLD_FILE_OK) {
        return FERRETGOLD_FILE_DAMAGED;
    }
    return status == FERRETGOLD_FILE_DAMAGED ? FERRETGOLD_FILE_OK : status;
}

/* ---- Saving ---------------------------------------------------------------------------------- */

/* The checksum of an entry with so many bytes, which has its number in it. */
static uint64_t entry_sum(const file_entry *entry, size_t length, uint64_t number) {
    XXH64_state_t state;
    (void)XXH64_reset(&state, number);
    (void)XXH64_update(&state, entry, offsetof(file_entry, sum));
    (void)XXH64_update(&state, entry->value, length);
    return htole64(XXH64_digest(&state));
}

/* Whether a slot has an entry that look-ups could find. */
static bool is_found(ferretgold_closed *closed, uint32_t shard, uint32_t slot,
                     ferretgold_entry *entry) {
    return ferretgold_closed_entry(closed, shard, slot, entry) == FERRETGOLD_OK && entry->visible;
}

/* How many such entries there are. */
static uint64_t count(ferretgold_closed *closed, const ferretgold_config *config) {
    ferretgold_entry entry;
    uint64_t found = 0;
    for (uint32_t shard = 0; shard < config->shards; shard++) {
        for (uint32_t slot = 0; slot < config->slots; slot++) {
            found += is_found(closed, shard, slot, &entry);
        }
    }
    return found;
}

/* Writes an entry whose value is in its place already. */
static bool write_entry(file_entry *it, const ferretgold_entry *entry, uint64_t number,
                        ferretgold_write *write, void *context) {
    it->w0 = htole64(entry->key.w0);
    it->w1 = htole64(entry->key.w1);
    it->charge = htole32(entry->charge);
    it->uses = htole32(entry->uses);
    it->length = htole32((uint32_t)entry->length);
    it->zero = 0;
    it->sum = entry_sum(it, entry->length, number);
    return write(context, it, HEAD + entry->length);
}

/* Writes the entry of a slot, of which this much is known. */
static bool write_closed(ferretgold_closed *closed, uint32_t shard, uint32_t slot,
                         const ferretgold_entry *entry, uint64_t number, ferretgold_write *write,
                         void *context) {
    file_entry it;
    (void)ferretgold_closed_value(closed, shard, slot, it.value, MOST_VALUE, NULL);
    return write_entry(&it, entry, number, write, context);
}

ferretgold_file_status ferretgold_save(ferretgold_closed *closed, ferretgold_write *write,
                                       void *context) {
    ferretgold_config config;
    ferretgold_entry entry;
    uint64_t number = 0;
    if (write == NULL || ferretgold_closed_config(closed, &config) != FERRETGOLD_OK) {
        return FERRETGOLD_FILE_NULL;
    }
    if (!file_begun(FILE_VERSION, count(closed, &config), write, context)) {
        return FERRETGOLD_FILE_WRITE;
    }
    for (uint32_t shard = 0; shard < config.shards; shard++) {
        for (uint32_t slot = 0; slot < config.slots; slot++) {
            if (is_found(closed, shard, slot, &entry)
                && !write_closed(closed, shard, slot, &entry, ++number, write, context)) {
                return FERRETGOLD_FILE_WRITE;
            }
        }
    }
    return FERRETGOLD_FILE_OK;
}

/* ---- Dumping --------------------------------------------------------------------------------- */

/* A dump of a cache that runs. */
typedef struct dump {
    ferretgold_client *client;
    FILE *to;
    uint64_t entries; /* so far */
    bool could;       /* whether all of them were written */
} dump;

/* Writes an entry that a walk came to. The walk doesn't tell whether it ended by that: it may be in the last slot. */
static bool write_visited(void *to, const ferretgold_held_entry *held) {
    dump *it = to;
    file_entry with;
    ferretgold_entry entry = {.key = held->key, .charge = (uint32_t)held->charge, .uses = held->uses};
    it->could = ferretgold_read_value(it->client, held->handle, with.value, MOST_VALUE, &entry.length)
                    == FERRETGOLD_OK
                && write_entry(&with, &entry, it->entries + 1, file_write, it->to);
    it->entries += it->could;
    return it->could;
}

/* How many entries there are stands before them, and is known behind them: so the begin is written twice. */
static ferretgold_file_status write_walked(void *of, FILE *to) {
    dump *it = of;
    ferretgold_place place = {0, 0};
    it->to = to;
    if (!file_begun(FILE_VERSION, 0, file_write, to)) {
        return FERRETGOLD_FILE_WRITE;
    }
    if (ferretgold_walk(it->client, &place, UINT64_MAX, write_visited, it) > FERRETGOLD_MISS) {
        return FERRETGOLD_FILE_BUSY;
    }
    return it->could && fseek(to, 0, SEEK_SET) == 0
                   && file_begun(FILE_VERSION, it->entries, file_write, to)
               ? FERRETGOLD_FILE_OK
               : FERRETGOLD_FILE_WRITE;
}

ferretgold_file_status ferretgold_dump(ferretgold_client *client, const char *path,
                                       uint64_t *saved) {
    dump it = {client, NULL, 0, true};
    if (client == NULL || path == NULL) {
        return FERRETGOLD_FILE_NULL;
    }
    const ferretgold_file_status status = file_dumped(path, write_walked, &it);
    if (saved != NULL && status == FERRETGOLD_FILE_OK) {
        *saved = it.entries;
    }
    return status;
}

/* ---- Loading --------------------------------------------------------------------------------- */

/* Reads an entry, and how long it is. */
static ferretgold_file_status read_entry(const file_source *from, uint64_t number, file_entry *it,
                                         size_t *length) {
    ferretgold_file_status status = file_bytes(from, it, HEAD);
    if (status != FERRETGOLD_FILE_OK) {
        return status;
    }
    *length = le32toh(it->length);
    if (*length > MOST_VALUE || it->charge == 0 || it->zero != 0) {
        return FERRETGOLD_FILE_DAMAGED;
    }
    status = file_bytes(from, it->value, *length);
    if (status == FERRETGOLD_FILE_OK && it->sum != entry_sum(it, *length, number)) {
        return FERRETGOLD_FILE_DAMAGED;
    }
    return status;
}

/* Reads a file's entries, as far as that goes: how many `*read` says. */
static ferretgold_file_status read_entries(const file_source *from, uint64_t entries, chosen *those,
                                           uint64_t *read) {
    file_entry it;
    size_t length = 0;
    for (*read = 0; *read < entries; ++*read) {
        const ferretgold_file_status status = read_entry(from, *read + 1, &it, &length);
        if (status != FERRETGOLD_FILE_OK) {
            return status;
        }
        const file_value entry = {{le64toh(it.w0), le64toh(it.w1)}, *read,
                                  it.value, le32toh(it.charge),
                                  le32toh(it.uses), (uint32_t)length};
        if (!chosen_add(those, &entry)) {
            return FERRETGOLD_FILE_MEMORY;
        }
    }
    return file_end(from);
}

/* Draws a configuration's seed, if it has none, and has places for what its cache takes. */
static ferretgold_file_status places_for(const ferretgold_config *config, ferretgold_config *seeded,
                                         chosen **those) {
    if (ferretgold_config_check(config) != FERRETGOLD_OK) {
        return FERRETGOLD_FILE_REFUSED;
    }
    *seeded = *config;
    if (seed_drawn(&seeded->seed) != FERRETGOLD_OK) {
        return FERRETGOLD_FILE_REFUSED;
    }
    *those = chosen_open(seeded);
    return *those != NULL ? FERRETGOLD_FILE_OK : FERRETGOLD_FILE_MEMORY;
}

/* Opens a cache with what was chosen, which is freed: how many entries it has. */
static ferretgold_file_status begun(const ferretgold_config *config, chosen *those,
                                    ferretgold_cache **cache, uint64_t *left) {
    ferretgold_image *image = chosen_image(those, left);
    return image != NULL && ferretgold_reopen(config, image, cache, NULL) == FERRETGOLD_OK
               ? FERRETGOLD_FILE_OK
               : FERRETGOLD_FILE_MEMORY;
}

/* Whether a cache comes with this status. */
static bool is_taken(ferretgold_file_status status, bool keep_front) {
    return status == FERRETGOLD_FILE_OK || (keep_front && status == FERRETGOLD_FILE_DAMAGED);
}

ferretgold_file_status ferretgold_load(const ferretgold_config *config, ferretgold_read *read,
                                       void *context, bool keep_front, ferretgold_cache **cache,
                                       ferretgold_loaded *loaded) {
    const file_source from = {read, context};
    ferretgold_config seeded;
    ferretgold_loaded it = {0, 0, 0};
    chosen *those = NULL;
    uint64_t entries = 0;
    if (config == NULL || read == NULL || cache == NULL) {
        return FERRETGOLD_FILE_NULL;
    }
    ferretgold_file_status status = file_begin(&from, FILE_VERSION, &entries);
    if (!is_taken(status, keep_front)) {
        return status;
    }
    ferretgold_file_status opened = places_for(config, &seeded, &those);
    if (opened != FERRETGOLD_FILE_OK) {
        return opened;
    }
    if (status == FERRETGOLD_FILE_OK) {
        status = read_entries(&from, entries, those, &it.entries);
    }
    if (!is_taken(status, keep_front)) {
        chosen_free(those);
        return status;
    }
    opened = begun(&seeded, those, cache, &it.left);
    if (opened != FERRETGOLD_FILE_OK) {
        return opened;
    }
    it.lost = it.entries - it.left;
    if (loaded != NULL) {
        *loaded = it;
    }
    return status;
}

/* ---- Texts ----------------------------------------------------------------------------------- */

const char *ferretgold_file_status_text(ferretgold_file_status status) {
    switch (status) {
    case FERRETGOLD_FILE_OK: return "ok";
    case FERRETGOLD_FILE_NULL: return "a pointer is null";
    case FERRETGOLD_FILE_WRITE: return "writing failed";
    case FERRETGOLD_FILE_READ: return "reading failed";
    case FERRETGOLD_FILE_KIND: return "it is no file of a cache";
    case FERRETGOLD_FILE_VERSION: return "the file has a version that the library doesn't know";
    case FERRETGOLD_FILE_DAMAGED: return "the file is cut off, too long, or changed";
    case FERRETGOLD_FILE_REFUSED: return "the configuration was refused";
    case FERRETGOLD_FILE_MEMORY: return "memory was refused";
    case FERRETGOLD_FILE_BUSY: return "no client or no handle was to be had";
    }
    return "unknown";
}
