/*
 * ferretgold_image.h - a cache that begins with entries, as those that a closed one had.
 *
 * What ferretgold.h says of refusals and of what isn't checked holds here too, and of keys what
 * ferretgold_file.h says.
 *
 *     ferretgold_image *image;
 *     if (ferretgold_image_open(&image) != FERRETGOLD_OK) ...
 *     for (... each entry ...)
 *         if (ferretgold_image_add(image, &key, value, length, charge, uses) != FERRETGOLD_OK) ...
 *     if (ferretgold_reopen(&config, image, &cache, &left_out) != FERRETGOLD_OK) ...
 *
 * OBJECTS AND THREADS
 *   An image has entries, in the order in which they were added. It stays on the thread that opened
 *   it, and ends by ferretgold_reopen or ferretgold_image_free: its pointer stands for nothing then.
 */
#ifndef FERRETGOLD_IMAGE_H
#define FERRETGOLD_IMAGE_H

#include "ferretgold.h"

#ifdef __cplusplus
extern "C" {
#endif

/* Entries for a cache to begin with. */
typedef struct ferretgold_image ferretgold_image;

/* Makes an image with no entries. Allocates it. Refuses OUT_OF_MEMORY. */
ferretgold_status ferretgold_image_open(ferretgold_image **image);

/*
 * Adds an entry, with a copy of its value. Nothing is judged: an entry that no cache can have is left
 * out of each. `uses` is its countdown (ferretgold_closed.h). `value` may be null if `length`
 * is 0.
 *
 * Allocates the copy, and a longer list where the list is full.
 *
 * Refuses OUT_OF_MEMORY. The image is as it was then.
 */
ferretgold_status ferretgold_image_add(ferretgold_image *image, const ferretgold_key *key,
                                       const void *value, size_t length, uint32_t charge,
                                       uint32_t uses);

/* Frees it, unless it is null. */
void ferretgold_image_free(ferretgold_image *image);

/*
 * Opens a cache as ferretgold_open does, which begins with the entries of an image. The image is
 * freed, whatever is returned. `left_out` gets how many entries the cache doesn't have, none if they
 * are the visible ones of a closed cache of this configuration, and may be null.
 *
 * Each entry goes where its key belongs, by this configuration's seed and shards. In their order
 * those come in for which their shard has a place, of 84 for each hundred slots, and under strict
 * capacity room for their charge; one whose charge is 0, or whose value is longer than a slot has
 * room for, doesn't. Each comes in once, as it was added, but with 553,651,204 uses at most; two of
 * one key both do. Nothing is evicted, and no count of a client begins above 0.
 *
 * The client of number 0 made them, and used as many serials as the shard with the most entries has.
 * It may have fewer left than the configuration says: these and those are at most 2^54. All others
 * have all of theirs left.
 *
 * Allocates what ferretgold_open does, and for a time a place for each slot of all shards, and one
 * shard's words once more. Costs what that does, for each entry a look at each probe up to its slot,
 * and two stores for each of its words.
 *
 * Refuses what ferretgold_open refuses. Nothing remains then, the image neither.
 */
ferretgold_status ferretgold_reopen(const ferretgold_config *config, ferretgold_image *image,
                                    ferretgold_cache **cache, size_t *left_out)
    FERRETGOLD_LINKED(ferretgold_reopen);

#ifdef __cplusplus
}
#endif

#endif
