/* The entries of a file with which a cache is to begin, chosen as they are read. It is tested, not proved.
 *
 * Each shard has as many places as its table takes entries. Those that are filled are a heap, by which of
 * them leaves first: so what is kept at a time is never more than the cache has room for. */
#include "chosen.h"
#include "limits.h"
#include "opening.h"

#define XXH_INLINE_ALL
#include <xxhash.h>

#include <stdlib.h>
#include <string.h>

/* A place, which is smaller than a slot that has as long a value. */
typedef struct place {
    ferretgold_key key;
    uint64_t number;
    void *value; /* a copy; NULL if it has no bytes */
    uint32_t charge, uses;
    uint32_t next;   /* place of those in one bucket */
    uint16_t length; /* of the value */
    uint16_t at;     /* in the heap */
} place;

_Static_assert(MOST_SLOTS * OCCUPANCY_PERCENT / 100 <= UINT16_MAX && MOST_VALUE <= UINT16_MAX,
               "two bytes are enough for a place of a shard, and for a length");

struct chosen {
    ferretgold_config config;
    uint64_t seed;                /* as the proved library has it */
    uint64_t capacity;            /* of a shard */
    uint32_t filled[MOST_SHARDS]; /* places of each shard that are */
    uint32_t most;                /* places of a shard */
    place *places;                /* those of all shards */
    uint16_t *heap;               /* for each shard its places: those that are filled, and the others behind */
    uint32_t *bucket;             /* as many as slots: the first place of each */
};

static const uint32_t NO_PLACE = UINT32_MAX;

/* ---- Places ---------------------------------------------------------------------------------- */

static bool are_made(chosen *it) {
    const uint32_t slots = it->config.shards * it->config.slots, all = it->config.shards * it->most;
    it->places = malloc(all * sizeof *it->places);
    it->heap = malloc(all * sizeof *it->heap);
    it->bucket = malloc(slots * sizeof *it->bucket);
    if (it->places == NULL || it->heap == NULL || it->bucket == NULL) {
        return false;
    }
    for (uint32_t at = 0; at < all; at++) {
        it->heap[at] = (uint16_t)(at % it->most);
    }
    for (uint32_t at = 0; at < slots; at++) {
        it->bucket[at] = NO_PLACE;
    }
    return true;
}

chosen *chosen_open(const ferretgold_config *config) {
    chosen *it = malloc(sizeof *it);
    if (it == NULL) {
        return NULL;
    }
    *it = (chosen){.config = *config,
                   .seed = seed_proved(config->seed),
                   .capacity = (config->capacity + config->shards - 1) / config->shards,
                   .most = config->slots * OCCUPANCY_PERCENT / 100};
    if (!are_made(it)) {
        chosen_free(it);
        return NULL;
    }
    return it;
}

void chosen_free(chosen *it) {
    for (uint32_t shard = 0; shard < it->config.shards; shard++) {
        for (uint32_t at = 0; at < it->filled[shard]; at++) {
            free(it->places[shard * it->most + it->heap[shard * it->most + at]].value);
        }
    }
    free(it->places);
    free(it->heap);
    free(it->bucket);
    free(it);
}

/* ---- Keys ------------------------------------------------------------------------------------ */

/* What a round of the proved library's seeding adds for a word. */
static uint64_t mixed(uint64_t seed, uint64_t word) {
    const uint64_t product = (word ^ seed) * UINT64_C(0x9e3779b97f4a7c15);
    return seed == 0 ? 0 : product ^ product >> 32;
}

/* The shard where a key belongs, as the proved library has it. */
static uint32_t shard_of(const chosen *it, const ferretgold_key *key) {
    const uint64_t w1 = key->w1 + mixed(it->seed, key->w0);
    const uint64_t w0 = key->w0 + mixed(it->seed, w1);
    return (uint32_t)(w0 >> 32) & (it->config.shards - 1);
}

/* Where the number of a key's place stands: behind its bucket's others if it has none. */
static uint32_t *link_of(chosen *it, const ferretgold_key *key) {
    const uint32_t slots = it->config.shards * it->config.slots;
    uint32_t *link = &it->bucket[XXH64(key, sizeof *key, it->seed) % slots];
    while (*link != NO_PLACE && memcmp(&it->places[*link].key, key, sizeof *key) != 0) {
        link = &it->places[*link].next;
    }
    return link;
}

/* ---- Heaps ----------------------------------------------------------------------------------- */

/* The filled places of a shard. */
typedef struct heap {
    place *places;
    uint16_t *order;
    uint32_t count;
} heap;

static heap heap_of(const chosen *it, uint32_t shard) {
    const size_t first = (size_t)shard * it->most;
    return (heap){it->places + first, it->heap + first, it->filled[shard]};
}

/* Which entry leaves first: that with fewer uses, and of equal ones the later. */
static bool leaves_before(uint32_t uses, uint64_t number, const place *other) {
    return uses < other->uses || (uses == other->uses && number > other->number);
}

static bool is_before(const heap *it, uint32_t one, uint32_t other) {
    const place *first = &it->places[it->order[one]];
    return leaves_before(first->uses, first->number, &it->places[it->order[other]]);
}

static void exchange(const heap *it, uint32_t one, uint32_t other) {
    const uint16_t place = it->order[one];
    it->order[one] = it->order[other];
    it->order[other] = place;
    it->places[it->order[one]].at = (uint16_t)one;
    it->places[place].at = (uint16_t)other;
}

static void rise(const heap *it, uint32_t at) {
    for (; at > 0 && is_before(it, at, (at - 1) / 2); at = (at - 1) / 2) {
        exchange(it, at, (at - 1) / 2);
    }
}

static void sink(const heap *it, uint32_t at) {
    for (uint32_t child = 2 * at + 1; child < it->count; child = 2 * at + 1) {
        child += child + 1 < it->count && is_before(it, child + 1, child);
        if (!is_before(it, child, at)) {
            return;
        }
        exchange(it, at, child);
        at = child;
    }
}

/* ---- Choosing -------------------------------------------------------------------------------- */

/* Empties a place, whose number stands there. */
static void leave(chosen *it, uint32_t *link) {
    place *left = &it->places[*link];
    const uint32_t shard = *link / it->most, at = left->at;
    it->filled[shard] -= 1;
    const heap rest = heap_of(it, shard);
    *link = left->next;
    free(left->value);
    exchange(&rest, at, rest.count);
    rise(&rest, at);
    sink(&rest, at);
}

/* Fills a place. False if memory is refused. */
static bool enter(chosen *it, uint32_t shard, const file_value *entry) {
    void *value = entry->length == 0 ? NULL : malloc(entry->length);
    if (value != NULL) {
        memcpy(value, entry->value, entry->length);
    } else if (entry->length != 0) {
        return false;
    }
    const heap all = heap_of(it, shard);
    uint32_t *link = link_of(it, &entry->key);
    *link = shard * it->most + all.order[all.count];
    it->places[*link] = (place){entry->key, entry->number, value, entry->charge, entry->uses,
                                NO_PLACE, (uint16_t)entry->length, (uint16_t)all.count};
    it->filled[shard] += 1;
    rise(&all, all.count);
    return true;
}

/* Whether a shard that is empty takes an entry. */
static bool is_fit(const chosen *it, const file_value *entry) {
    return entry->length <= 8 * it->config.room
           && (!it->config.strict || entry->charge <= it->capacity);
}

bool chosen_add(chosen *it, const file_value *entry) {
    const uint32_t shard = shard_of(it, &entry->key);
    uint32_t *link = link_of(it, &entry->key);
    if (*link != NO_PLACE) {
        leave(it, link);
    }
    const heap all = heap_of(it, shard);
    const place *first = &all.places[all.order[0]];
    const bool is_full = all.count == it->most;
    if (!is_fit(it, entry) || (is_full && leaves_before(entry->uses, entry->number, first))) {
        return true;
    }
    if (is_full) {
        leave(it, link_of(it, &first->key));
    }
    return enter(it, shard, entry);
}

/* ---- What was chosen ------------------------------------------------------------------------- */

/* Has the places of a shard in the order in which their entries come in: the reverse of that in which
 * they leave. */
static void sort(heap all) {
    while (all.count > 0) {
        all.count -= 1;
        exchange(&all, 0, all.count);
        sink(&all, 0);
    }
}

/* Adds the entries of a shard to an image and to a count, under strict capacity those for whose charge there is
 * room. False if memory is refused. */
static bool are_added(chosen *it, uint32_t shard, ferretgold_image *image, uint64_t *count) {
    const heap all = heap_of(it, shard);
    uint64_t sum = 0;
    sort(all);
    for (uint32_t at = 0; at < all.count; at++) {
        place *entry = &all.places[all.order[at]];
        if (it->config.strict && sum + entry->charge > it->capacity) {
            continue;
        }
        sum += entry->charge;
        *count += 1;
        if (ferretgold_image_add(image, &entry->key, entry->value, entry->length, entry->charge,
                                 entry->uses) != FERRETGOLD_OK) {
            return false;
        }
        free(entry->value);
        entry->value = NULL;
    }
    return true;
}

ferretgold_image *chosen_image(chosen *it, uint64_t *count) {
    ferretgold_image *image = NULL;
    bool is_made = ferretgold_image_open(&image) == FERRETGOLD_OK;
    for (uint32_t shard = 0; is_made && shard < it->config.shards; shard++) {
        is_made = are_added(it, shard, image, count);
    }
    chosen_free(it);
    if (!is_made) {
        ferretgold_image_free(image);
        return NULL;
    }
    return image;
}
