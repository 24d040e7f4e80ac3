/*
 * ferretgold_file.h - what a cache has goes to a file when it is closed, or while it runs, and one that
 * is opened begins with that; of a cache of objects it goes there while it runs, and comes back by
 * insertions. It is no part of libferretgold, but of libferretgold_file.a, which is built where
 * xxhash.h is found and stands on the calls of ferretgold.h, ferretgold_closed.h, ferretgold_image.h and
 * ferretgold_object.h.
 *
 * What is said there of objects, threads, refusals and what isn't checked holds here too.
 *
 * KEYS THAT LAST
 *   A warm start serves stale data unless keys name content that never changes. A key that names a
 *   place whose content may change, as a file's number that is given again or a block that is
 *   written anew, must not be in a cache that is saved. A number that no other file ever gets may be,
 *   or one made of a file's name, inode, size and times, that of its last status change among them: any
 *   program can set the others back.
 *
 * THE FORMAT. All numbers have their lowest byte first.
 *   The file begins with 32 bytes:
 *        0  8  "FERRETG1"
 *        8  4  the version: 1, or 2 where the entries are objects
 *       12  4  0
 *       16  8  how many entries follow; in version 2, which says so behind them, 0
 *       24  8  XXH64 of the bytes before, by seed 0
 *   In version 1 each entry begins with 40, behind which stand the bytes of its value:
 *        0 16  its key: w0 and w1
 *       16  4  its charge, above 0
 *       20  4  its uses: its countdown
 *       24  4  its length, at most 4,096
 *       28  4  0
 *       32  8  XXH64 of the bytes before and of the value, by the entry's number as a seed, from 1 on
 *   In version 2 with 40 others, behind which stand its bytes, and XXH64 of these by its number:
 *        0 16  its key: w0 and w1
 *       16  4  its charge, above 0
 *       20  2  its kind
 *       22  2  0
 *       24  8  how many bytes it has
 *       32  8  XXH64 of the bytes before, by its number
 *   and behind the last entry stand 40 bytes of the same form: a key, a charge and a kind of 0, and
 *   how many entries there are in place of the bytes. Nothing stands behind that, or behind the last
 *   entry of version 1. Only entries that are visible are saved, shard by shard and slot by slot. The
 *   seed of the keys and the cache's sizes aren't: another configuration may load.
 */
#ifndef FERRETGOLD_FILE_H
#define FERRETGOLD_FILE_H

#include "ferretgold_closed.h"
#include "ferretgold_object.h"

#ifdef __cplusplus
extern "C" {
#endif

/* What saving or loading returns. */
typedef enum ferretgold_file_status {
    FERRETGOLD_FILE_OK = 0,
    FERRETGOLD_FILE_NULL = 1,    /* a pointer is null that may not be */
    FERRETGOLD_FILE_WRITE = 2,   /* the caller's function couldn't write */
    FERRETGOLD_FILE_READ = 3,    /* the caller's function couldn't read */
    FERRETGOLD_FILE_KIND = 4,    /* it is no such file */
    FERRETGOLD_FILE_VERSION = 5, /* it has a version that this library doesn't know */
    FERRETGOLD_FILE_DAMAGED = 6, /* it is cut off, too long, or changed */
    FERRETGOLD_FILE_REFUSED = 7, /* the configuration was refused, as by ferretgold_open, or no seed
                                    could be drawn for it */
    FERRETGOLD_FILE_MEMORY = 8,  /* memory was refused */
    FERRETGOLD_FILE_BUSY = 9,    /* no client or no handle was to be had to walk over the cache */
} ferretgold_file_status;

/* Writes all these bytes, and returns whether it could. */
typedef bool ferretgold_write(void *context, const void *bytes, size_t count);

/* Reads so many bytes, and fewer only at the end; `*could` is true before the call, and false after it
 * where reading failed. Returns how many it read. */
typedef size_t ferretgold_read(void *context, void *bytes, size_t count, bool *could);

/* What came of loading a file. */
typedef struct ferretgold_loaded {
    uint64_t entries; /* that the file has, up to its damage */
    uint64_t left;    /* that are in the cache */
    uint64_t lost;    /* the others: there was no room, or a later entry of the key */
} ferretgold_loaded;

/* ---- Caches of bytes ------------------------------------------------------------------------- */

/*
 * Writes what look-ups could find in a cache that was closed. Allocates nothing, and needs some 5 KiB
 * of stack. Costs for each slot ten loads, and for each entry one for each eight bytes.
 */
ferretgold_file_status ferretgold_save(ferretgold_closed *closed, ferretgold_write *write,
                                       void *context);

/*
 * Opens a cache that begins with what a file has, each entry with its key, its value, its charge and its
 * uses, of which there are 553,651,204 at most. A cache of the same configuration has them all. Each
 * shard has 84 places for each hundred slots. Where more entries belong there, those come in that have
 * most uses, and of equal ones the earlier. Under strict capacity they come in in this order, and one
 * for whose charge there is no room then is passed over; its place stays empty. An entry whose value is
 * longer than a slot has room for, or whose charge is above a strict shard's part, has no place.
 *
 * Of one key the last entry comes in, if any does: an earlier one goes once a later one is read. What had
 * no place beside the earlier one stays out then. `loaded` may be null.
 *
 * A file that is damaged is refused, and `cache` and `loaded` stay; with `keep_front` what stands
 * before the damage is loaded, nothing perhaps, and DAMAGED is returned with the cache.
 *
 * Calls `read` from the front of the file to its end, and for no byte twice. Whatever the file says,
 * what is allocated at once, the cache among it, is at most twice ferretgold_memory(config) and 64 KiB;
 * with one shard, which opening takes twice beside its values, three times that memory. Uses serials and
 * costs as ferretgold_reopen does, and for each entry of the file a checksum, a search for its key, and,
 * where it has a place for a time, at most as many exchanges of places as those of a shard can be halved.
 */
ferretgold_file_status ferretgold_load(const ferretgold_config *config, ferretgold_read *read,
                                       void *context, bool keep_front, ferretgold_cache **cache,
                                       ferretgold_loaded *loaded);

/*
 * Writes the entries that a walk over a cache finds (ferretgold_walk) to a file at `path`, while other
 * threads work with it: each is held for as long as it is written. So the file has what was visible all
 * the time, and is no picture of one moment: what was erased or evicted behind the walk is in it, too, and
 * may come back: see KEYS THAT LAST. A key that was inserted anew meanwhile may be there twice.
 * Uses stay as they are, and are written. ferretgold_load loads it. `saved` gets how many entries were
 * written; it may be null.
 *
 * The file is whole or not at all: it is written at `path` with ".new" behind it first, which takes the
 * file's place once it is on the disk. So whenever the program or the system ends, the file is that of the
 * last call that ended well, or of the one that was ending. One call at a time may write a path.
 *
 * BUSY: the walk was refused by NO_CLIENT, HANDLES_FULL or SPENT. MEMORY. WRITE: also where the file
 * couldn't take its place, or where the system didn't say that it is on the disk there. Allocates what
 * stdio does, and the path, and needs some 5 KiB of stack. Costs a walk, and for each entry a load for
 * each eight bytes and what a checksum and writing them cost.
 */
ferretgold_file_status ferretgold_dump(ferretgold_client *client, const char *path,
                                       uint64_t *saved);

/* ---- Caches of objects ----------------------------------------------------------------------- */

/* How many bytes an object has in a file; UINT64_MAX leaves it out. */
typedef uint64_t ferretgold_object_size(void *context, const ferretgold_object_handle *handle);

/* Copies `count` of its bytes, from `offset` on, and returns whether it could. They are asked for from
 * the first to the last, each once. */
typedef bool ferretgold_object_copy(void *context, const ferretgold_object_handle *handle,
                                    uint64_t offset, void *bytes, size_t count);

/* An entry of a file, whose bytes stay for the time of a call. */
typedef struct ferretgold_object_saved {
    ferretgold_key key;
    const void *bytes;
    size_t length;
    uint32_t charge;
    uint16_t kind;
} ferretgold_object_saved;

/* Makes the object of an entry and inserts it. Returns whether it was placed. */
typedef bool ferretgold_object_make(void *context, const ferretgold_object_saved *saved);

/*
 * Writes the entries that a walk over a cache finds (ferretgold_object_pin_at), while other threads
 * work with it: each is held for as long as its functions are called and its bytes are written. So
 * the file has what was visible all the time, and is no picture of one moment: what was erased or
 * evicted behind the walk is in it, too. Uses stay as they are. `size` and `copy` are both null where
 * objects are bytes (ferretgold_object_insert_bytes): those of other kinds are left out then. `saved`
 * gets how many entries were written; it may be null.
 *
 * WRITE: `write` or `copy` couldn't. BUSY: each of 64 tries was refused by NO_CLIENT, HANDLES_FULL or
 * SPENT. What was written until then is no whole file. Allocates nothing, and needs some 5 KiB of
 * stack. Costs a walk, and for each entry a release, and its functions' calls.
 */
ferretgold_file_status ferretgold_object_save(ferretgold_object_cache *cache,
                                              ferretgold_object_size *size,
                                              ferretgold_object_copy *copy, void *context,
                                              ferretgold_write *write, void *to, uint64_t *saved);

/*
 * Calls `make` for each entry of such a file, once its bytes are read and its checksum is right. Of a
 * file that is damaged it is called for what stands before the damage. `loaded` gets how many entries
 * were read, and how many of them `make` placed, also after a refusal; it may be null.
 *
 * Allocates room for the bytes of the longest entry, which grows only as they are read: at most twice
 * as much as the file has, or 64 KiB.
 */
ferretgold_file_status ferretgold_object_load(ferretgold_read *read, void *from,
                                              ferretgold_object_make *make, void *context,
                                              ferretgold_loaded *loaded);

/*
 * Saves to a file at `path`, whole or not at all, as ferretgold_dump does.
 *
 * What comes back from it may have been erased behind the dump: see KEYS THAT LAST.
 *
 * Returns what ferretgold_object_save does; MEMORY; WRITE also where ferretgold_dump does. Allocates what
 * that does.
 */
ferretgold_file_status ferretgold_object_dump(ferretgold_object_cache *cache,
                                              ferretgold_object_size *size,
                                              ferretgold_object_copy *copy, void *context,
                                              const char *path, uint64_t *saved);

/*
 * Loads such a file into a cache, whole or not at all: it is read twice, and `make` called only once it
 * was found sound, as ferretgold_object_load calls it; null where objects are bytes, which are
 * inserted at FERRETGOLD_LOW. Before each entry its key is erased, so that of one key the last comes in.
 *
 * Returns what ferretgold_object_load does; READ also if there is no such file.
 */
ferretgold_file_status ferretgold_object_warm(ferretgold_object_cache *cache, const char *path,
                                              ferretgold_object_make *make, void *context,
                                              ferretgold_loaded *loaded);

/* ---- Statuses -------------------------------------------------------------------------------- */

/* A status as a sentence; "unknown" if it is none. */
const char *ferretgold_file_status_text(ferretgold_file_status status);

#ifdef __cplusplus
}
#endif

#endif
