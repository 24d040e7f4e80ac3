/*
 * ferretgold_raw.h - the proved library's own functions, which those of ferretgold.h call. A program
 * calls none of these.
 *
 * These refuse what the functions of ferretgold.h refuse, except null pointers and clients that are
 * idle. Each object is in one call at a time. A call that refuses leaves its outputs as they were,
 * except where ferretgold.h says so.
 */
#include "ferretgold.h" /* before the guard, as it ends with ferretgold_inline.h */

#ifndef FERRETGOLD_RAW_H
#define FERRETGOLD_RAW_H

#ifdef __cplusplus
extern "C" {
#endif

/* A pointer to a cache or to a client, as a call takes it: by its address, and by value where the
 * object ends. It isn't null, and a call leaves it as it was. If a call gives an object, or hands
 * back as `kept` one that it didn't end, the address is that of a null one before. */
typedef struct ferretgold_object {
    void *at;
} ferretgold_object;

struct ferretgold_entry; /* of ferretgold_closed.h */

/* What the proved client counts itself of its look-ups and insertions. The C around it does so, too, for
 * other threads to read. */
typedef struct ferretgold_outcomes {
    uint64_t hits;
    uint64_t misses;
    uint64_t placed;
    uint64_t dropped;
    uint64_t standalone;
    uint64_t refused;
} ferretgold_outcomes;

/* What an inline call returns for a client that is idle: NO_CLIENT. Only a library of the header's
 * version has this function. */
ferretgold_status FERRETGOLD_OF_VERSION(ferretgold_idle)(void);
/* None of these pointers is null, even if a length is 0. */
uint32_t ferretgold_raw_config_check(const ferretgold_config *config);
/* No two caches that are open have one number, which their handles have too. A cache gives all its
 * clients when it is opened, each to the place of its number, and takes all back when it is closed:
 * `count` is the configuration's. */
uint32_t ferretgold_raw_open(const ferretgold_config *config, uint32_t number,
                             ferretgold_object *clients, size_t count, ferretgold_object *cache);
/* A cache that begins with entries: first the list of them, which allocates it, then each entry. The
 * list is gone once a cache was to begin with it, whatever is returned. */
uint32_t ferretgold_raw_image_open(ferretgold_object *image);
uint32_t ferretgold_raw_image_add(ferretgold_object *image, const ferretgold_key *key,
                                  const uint8_t *value, size_t length, uint32_t charge,
                                  uint32_t uses);
void ferretgold_raw_image_free(ferretgold_object image);
uint32_t ferretgold_raw_reopen(const ferretgold_config *config, uint32_t number,
                               ferretgold_object image, ferretgold_object *clients, size_t count,
                               ferretgold_object *cache, size_t *left_out);
/* Where a client is refused, or one is missing, all are in their places as before; after SHARED the
 * cache has them. */
uint32_t ferretgold_raw_close(ferretgold_object cache, ferretgold_object *clients, size_t count,
                              ferretgold_totals *totals, ferretgold_object *kept);
/* A closed cache: first the place for one, which allocates it, then what is left of a cache. Until
 * then reading it is refused by CLIENTS_OUT. */
uint32_t ferretgold_raw_closed_open(ferretgold_object *closed);
uint32_t ferretgold_raw_close_keeping(ferretgold_object cache, ferretgold_object *clients,
                                      size_t count, ferretgold_object *closed,
                                      ferretgold_object *kept);
uint32_t ferretgold_raw_closed_totals(ferretgold_object *closed, ferretgold_totals *totals);
uint32_t ferretgold_raw_closed_entry(ferretgold_object *closed, uint32_t shard, uint32_t slot,
                                     struct ferretgold_entry *entry);
uint32_t ferretgold_raw_closed_value(ferretgold_object *closed, uint32_t shard, uint32_t slot,
                                     uint8_t *buffer, size_t capacity, size_t *length);
uint32_t ferretgold_raw_closed_word(ferretgold_object *closed, uint32_t shard, uint32_t slot,
                                    uint64_t *word);
uint32_t ferretgold_raw_closed_displacement(ferretgold_object *closed, uint32_t shard,
                                            uint32_t slot, uint64_t *displacement);
uint32_t ferretgold_raw_closed_hand(ferretgold_object *closed, uint32_t shard, uint64_t *hand);
void ferretgold_raw_closed_free(ferretgold_object closed);
uint32_t ferretgold_raw_lookup(ferretgold_object *client, const ferretgold_key *key,
                               ferretgold_handle *handle);
uint32_t ferretgold_raw_reref(ferretgold_object *client, const ferretgold_handle *handle,
                              ferretgold_handle *more);
uint32_t ferretgold_raw_release(ferretgold_object *client, const ferretgold_handle *handle,
                                bool useful, bool erase_if_last, bool *freed);
uint32_t ferretgold_raw_insert(ferretgold_object *client, const ferretgold_key *key,
                               const uint8_t *value, size_t length, uint32_t charge,
                               uint32_t priority, uint32_t *inserted);
uint32_t ferretgold_raw_insert_pinned(ferretgold_object *client, const ferretgold_key *key,
                                      const uint8_t *value, size_t length, uint32_t charge,
                                      uint32_t priority, uint32_t *inserted,
                                      ferretgold_handle *handle);
uint32_t ferretgold_raw_erase(ferretgold_object *client, const ferretgold_key *key,
                              uint32_t *hidden);
uint32_t ferretgold_raw_key(ferretgold_object *client, const ferretgold_handle *handle,
                            ferretgold_key *key);
uint32_t ferretgold_raw_value_len(ferretgold_object *client, const ferretgold_handle *handle,
                                  size_t *length);
uint32_t ferretgold_raw_read_value(ferretgold_object *client, const ferretgold_handle *handle,
                                   uint8_t *buffer, size_t capacity, size_t *length);
uint32_t ferretgold_raw_read_part(ferretgold_object *client, const ferretgold_handle *handle,
                                  size_t offset, uint8_t *buffer, size_t capacity,
                                  ferretgold_part *part);
uint32_t ferretgold_raw_get(ferretgold_object *client, const ferretgold_key *key, uint8_t *buffer,
                            size_t capacity, bool useful, size_t *length);
/* Holds the entry of a slot of a shard as a look-up of its key does, and returns MISS where none is
 * visible there, or there is no such slot. */
uint32_t ferretgold_raw_pin_at(ferretgold_object *client, uint32_t shard, uint32_t slot,
                               ferretgold_held_entry *held);
uint64_t ferretgold_raw_usage(ferretgold_object *client);
uint64_t ferretgold_raw_pinned_usage(ferretgold_object *client);
uint64_t ferretgold_raw_occupancy(ferretgold_object *client);
uint32_t ferretgold_raw_word(ferretgold_object *client, uint32_t shard, uint32_t slot,
                             uint64_t *word);
uint32_t ferretgold_raw_displacement(ferretgold_object *client, uint32_t shard, uint32_t slot,
                                     uint64_t *displacement);
uint32_t ferretgold_raw_handle_at(ferretgold_object *client, size_t index,
                                  ferretgold_handle *handle);
uint32_t ferretgold_raw_number(ferretgold_object *client);
uint32_t ferretgold_raw_held(ferretgold_object *client);
uint64_t ferretgold_raw_serials_left(ferretgold_object *client);
bool ferretgold_raw_holds(ferretgold_object *client, const ferretgold_handle *handle);
void ferretgold_raw_stats(ferretgold_object *client, ferretgold_stats *stats);
void ferretgold_raw_stats_at(ferretgold_object *client, const ferretgold_key *key, ferretgold_stats *stats);
void ferretgold_raw_counts(ferretgold_object *client, ferretgold_outcomes *counts);

/* A cache of objects. What an entry stands for is something of the caller's: where it lies, below 2^48,
 * and of which kind it is. The library never looks there. */
typedef struct ferretgold_object_value {
    uint64_t address;
    uint16_t kind;
} ferretgold_object_value;

/* The list of a client has `gone` places for what its calls free, and as many more as the client may
 * hold handles. */
struct ferretgold_object_config; /* of ferretgold_object.h */

/* What a look-up holds, or a walk at a slot: a handle on the entry, and what its insertion gave. */
typedef struct ferretgold_held_object {
    ferretgold_handle handle;
    ferretgold_key key;
    ferretgold_object_value object;
    uint64_t charge;
} ferretgold_held_object;

/* These return also the statuses of ferretgold_object.h. */
uint32_t ferretgold_raw_object_config_check(const struct ferretgold_object_config *config);
/* As ferretgold_raw_open. */
uint32_t ferretgold_raw_object_open(const struct ferretgold_object_config *config,
                                    uint32_t number, ferretgold_object *clients, size_t count,
                                    ferretgold_object *cache);
/* A closed cache of objects: first the place for what is left of one, which allocates it, then that.
 * A place takes what is left of one cache. */
uint32_t ferretgold_raw_objects_open(ferretgold_object *left);
/* Refuses the first client that is another cache's, by OTHER_CACHE, that holds a handle, by
 * HANDLES_OUT, or on whose list something is, by UNTAKEN. Then CLIENTS_OUT. Where a client is refused,
 * or one is missing, all are in their places as before; after SHARED the cache has them. */
uint32_t ferretgold_raw_object_close(ferretgold_object cache, ferretgold_object *clients,
                                     size_t count, ferretgold_object *left,
                                     ferretgold_object *kept);
/* The next object that the table had left, with the key of its insertion; MISS where all were handed
 * out. Only then is it ended: before that `end` refuses by UNTAKEN, and `kept` has it. */
uint32_t ferretgold_raw_objects_next(ferretgold_object *left, ferretgold_key *key,
                                     ferretgold_object_value *object);
uint32_t ferretgold_raw_objects_end(ferretgold_object left, ferretgold_object *kept);
/* Looks for the key in `held`, which gets the rest. */
uint32_t ferretgold_raw_object_hold(ferretgold_object *client, ferretgold_held_object *held);
/* Holds the entry of a slot of a shard as a look-up of its key does, and returns MISS where none is
 * visible there, or there is no such slot. Where it finds a hidden one that nobody holds, it tries to
 * free it. */
uint32_t ferretgold_raw_object_pin_at(ferretgold_object *client, uint32_t shard, uint32_t slot,
                                      ferretgold_held_object *held);
uint32_t ferretgold_raw_object_reref(ferretgold_object *client, const ferretgold_handle *handle,
                                     ferretgold_handle *more);
/* What is freed is on the client's list then, from which `take_gone` takes the newest, and says how many
 * are left there; it returns MISS where nothing is on it. */
uint32_t ferretgold_raw_object_release(ferretgold_object *client, const ferretgold_handle *handle,
                                       bool useful, bool erase_if_last, bool *freed);
uint32_t ferretgold_raw_object_erase(ferretgold_object *client, const ferretgold_key *key,
                                     uint32_t *hidden);
uint32_t ferretgold_raw_object_take_gone(ferretgold_object *client, ferretgold_key *key,
                                         ferretgold_object_value *object, size_t *left);
uint32_t ferretgold_raw_object_key(ferretgold_object *client, const ferretgold_handle *handle,
                                   ferretgold_key *key);
uint32_t ferretgold_raw_object_charge(ferretgold_object *client, const ferretgold_handle *handle,
                                      uint64_t *charge);
/* As those of a client of a cache of bytes. */
uint64_t ferretgold_raw_object_usage(ferretgold_object *client);
uint64_t ferretgold_raw_object_pinned_usage(ferretgold_object *client);
uint64_t ferretgold_raw_object_occupancy(ferretgold_object *client);
void ferretgold_raw_object_stats_at(ferretgold_object *client, const ferretgold_key *key,
                                    ferretgold_stats *stats);
/* `placing` is of the numbers of ferretgold_inserted: an object that is placed is the cache's, one that
 * stands alone is the client's, and one that is dropped stays the caller's, as after a refusal. Where
 * it isn't placed, and after CAPACITY_FULL and OCCUPANCY_FULL, `list_full` says whether the client's
 * list has no room for what a turn of the hand frees, so that with an empty one more may be freed.
 * Beside what the calls of a cache of bytes refuse, TOO_HIGH; with a handle GONE_FULL. */
uint32_t ferretgold_raw_object_insert(ferretgold_object *client, const ferretgold_key *key,
                                      const ferretgold_object_value *object, uint32_t charge,
                                      uint32_t priority, uint32_t *placing, bool *list_full);
uint32_t ferretgold_raw_object_insert_pinned(ferretgold_object *client, const ferretgold_key *key,
                                             const ferretgold_object_value *object, uint32_t charge,
                                             uint32_t priority, uint32_t *placing, bool *list_full,
                                             ferretgold_handle *handle);

#ifdef __cplusplus
}
#endif

#endif
