/* Walks over a cache of bytes: what each call visits, holds and leaves, where it stops, and what is erased by
 * them. None asks for memory. */
#include "expect.h"
#include "heap.h"

#include <stdint.h>
#include <string.h>

enum { KEYS = 6, SHARDS = 2, SLOTS = 8, ROOM = 16, HANDLES = 4 };

static const ferretgold_config SMALL = {.slots = SLOTS, .room = ROOM / 8, .clients = 2,
                                        .handles = HANDLES, .shards = SHARDS, .marks = true,
                                        .capacity = 600, .serials = FERRETGOLD_MOST_SERIALS, .seed = 1};

/* A cache, and its client at work. */
typedef struct stage {
    ferretgold_cache *cache;
    ferretgold_client *it;
} stage;

/* ---- Entries --------------------------------------------------------------------------------- */

/* Entry `number`, of which all is known by its key. */
static ferretgold_key key_of(uint64_t number) {
    return (ferretgold_key){number, 77};
}

static size_t length_of(uint64_t number) {
    return (size_t)(number * 3);
}

static uint32_t uses_of(uint64_t number) {
    return (uint32_t)(3 - number % 3 + number % 2);
}

static void insert(ferretgold_client *it, uint64_t number) {
    const ferretgold_key key = key_of(number);
    ferretgold_handle used;
    char value[ROOM];
    memset(value, (int)('a' + number), sizeof value);
    EXPECT(ferretgold_insert(it, &key, value, length_of(number), (uint32_t)number + 1,
                             (ferretgold_priority)(number % 3), NULL), 0);
    if (number % 2 == 1) {
        EXPECT(ferretgold_lookup(it, &key, &used), 0);
        EXPECT(ferretgold_release(it, used, true, false, NULL), 0);
    }
}

static bool is_there(ferretgold_client *it, uint64_t number) {
    const ferretgold_key key = key_of(number);
    char value[ROOM];
    return ferretgold_get(it, &key, value, sizeof value, false, NULL) == FERRETGOLD_OK;
}

/* What is held is the entry of this number, which the handle gives, too. */
static uint64_t seen(ferretgold_client *it, const ferretgold_held_entry *held) {
    const uint64_t number = held->key.w0;
    ferretgold_key key = {5, 5};
    char value[ROOM], wanted[ROOM];
    size_t length = 77;
    memset(wanted, (int)('a' + number), sizeof wanted);
    EXPECT(number < KEYS && held->key.w1 == 77, true);
    EXPECT(held->charge, number + 1);
    EXPECT(held->uses, uses_of(number));
    EXPECT(ferretgold_read_value(it, held->handle, value, sizeof value, &length), 0);
    EXPECT(length, length_of(number));
    EXPECT(memcmp(value, wanted, length), 0);
    EXPECT(ferretgold_handle_key(it, held->handle, &key), 0);
    EXPECT(key.w0 == number && key.w1 == 77, true);
    return number;
}

static stage filled(uint64_t serials) {
    ferretgold_config config = SMALL;
    stage on = {NULL, NULL};
    config.serials = serials;
    EXPECT(ferretgold_open(&config, &on.cache), 0);
    EXPECT(ferretgold_client_open(on.cache, &on.it), 0);
    for (uint64_t number = 0; number < KEYS; number++) {
        insert(on.it, number);
    }
    return on;
}

static void end(stage on) {
    EXPECT(ferretgold_client_close(on.cache, on.it), 0);
    EXPECT(ferretgold_close(on.cache, NULL), 0);
}

/* ---- Walks ----------------------------------------------------------------------------------- */

/* How often each key was visited, and after how many visits a call ends. */
typedef struct visits {
    ferretgold_client *it;
    unsigned of[KEYS];
    unsigned all, most;
    bool resumes;
} visits;

static bool note(void *context, const ferretgold_held_entry *held) {
    visits *to = context;
    EXPECT(ferretgold_held(to->it), 1);
    EXPECT(to->all == 0 || to->all % to->most != 0 || to->resumes, true); /* none behind the last one */
    to->resumes = false;
    to->of[seen(to->it, held)] += 1;
    to->all += 1;
    return to->all % to->most != 0;
}

/* Walks by so many slots a call, each of which ends behind so many visits. */
static void walk_by(ferretgold_client *client, uint64_t slots, unsigned most) {
    ferretgold_place place = {0, 0};
    visits it = {client, {0}, 0, most, false};
    ferretgold_status status;
    unsigned calls = 0;
    do {
        it.resumes = true;
        status = ferretgold_walk(client, &place, slots, note, &it);
        calls += 1;
        const uint64_t looked_at = slots < 16 && slots * calls < 16 ? slots * calls : 16;
        EXPECT(most == 1 || place.shard * SLOTS + place.slot == looked_at, true);
    } while (status == FERRETGOLD_OK && calls < 100);
    EXPECT(status, 1);
    EXPECT(place.shard == SHARDS && place.slot == 0, true);
    for (unsigned k = 0; k < KEYS; k++) {
        EXPECT(it.of[k], 1);
    }
    EXPECT(most == 1 ? calls >= KEYS : calls == (slots < 16 ? (16 + slots - 1) / slots : 1), true);
    EXPECT(ferretgold_walk(client, &place, slots, note, &it), 1);
    EXPECT(it.all, KEYS);
}

/* What walks leave: the words of all slots, and what is counted. */
typedef struct traces {
    uint64_t word[SHARDS * SLOTS];
    ferretgold_counts counts;
} traces;

static traces traces_of(stage on) {
    traces it;
    memset(&it, 0, sizeof it);
    for (uint32_t k = 0; k < SHARDS * SLOTS; k++) {
        EXPECT(ferretgold_word(on.it, k / SLOTS, k % SLOTS, &it.word[k]), 0);
    }
    EXPECT(ferretgold_cache_counts(on.cache, &it.counts), 0);
    return it;
}

static void walks_by_rows(void) {
    static const struct {
        uint64_t slots;
        unsigned most;
    } ALL[] = {{1, KEYS + 1}, {5, KEYS + 1}, {8, KEYS + 1}, {16, KEYS + 1}, {UINT64_MAX, KEYS + 1}, {100, 1}};
    const stage on = filled(FERRETGOLD_MOST_SERIALS);
    const traces before = traces_of(on);
    const uint64_t left = ferretgold_serials_left(on.it);
    heap_left = 0;
    for (size_t k = 0; k < sizeof ALL / sizeof *ALL; k++) {
        walk_by(on.it, ALL[k].slots, ALL[k].most);
    }
    heap_left = SIZE_MAX;
    EXPECT(left - ferretgold_serials_left(on.it), KEYS * sizeof ALL / sizeof *ALL);
    const traces after = traces_of(on);
    EXPECT(memcmp(&before, &after, sizeof before), 0);
    end(on);
}

/* Each slot, and others that aren't there: the entry or nothing. */
static void slots(void) {
    const stage on = filled(FERRETGOLD_MOST_SERIALS);
    unsigned entries = 0;
    for (uint32_t k = 0; k < (SHARDS + 1) * (SLOTS + 1); k++) {
        const uint32_t shard = k / (SLOTS + 1), slot = k % (SLOTS + 1);
        ferretgold_held_entry held = {.charge = 77};
        const ferretgold_status status = ferretgold_pin_at(on.it, shard, slot, &held);
        EXPECT(status == FERRETGOLD_OK || (status == FERRETGOLD_MISS && held.charge == 77), true);
        if (status == FERRETGOLD_OK) {
            entries += 1;
            EXPECT(shard < SHARDS && slot < SLOTS, true);
            (void)seen(on.it, &held);
            EXPECT(ferretgold_release(on.it, held.handle, false, false, NULL), 0);
        }
    }
    EXPECT(entries, KEYS);
    end(on);
}

/* ---- Refusals -------------------------------------------------------------------------------- */

/* Each call is refused so at a slot, where it stays; behind the last one there is nothing to refuse. */
static void refused(stage on, int status) {
    ferretgold_held_entry held = {.charge = 77};
    ferretgold_place place = {0, 0}, behind = {SHARDS, 0};
    visits it = {on.it, {0}, 0, 1, false};
    uint64_t hidden = 77;
    const bool is_idle = status == FERRETGOLD_NO_CLIENT;
    EXPECT(ferretgold_pin_at(on.it, 0, 0, &held), status);
    EXPECT(ferretgold_pin_at(on.it, SHARDS, 0, &held), is_idle ? status : 1);
    EXPECT(ferretgold_pin_at(on.it, 0, SLOTS, &held), is_idle ? status : 1);
    EXPECT(held.charge, 77);
    EXPECT(ferretgold_walk(on.it, &place, 100, note, &it), status);
    EXPECT(place.shard == 0 && place.slot == 0 && it.all == 0, true);
    EXPECT(ferretgold_walk(on.it, &behind, 100, note, &it), is_idle ? status : 1);
    EXPECT(ferretgold_erase_where(on.it, NULL, NULL, &hidden), status);
    EXPECT(ferretgold_erase_where(on.it, NULL, NULL, NULL), status);
    EXPECT(hidden, 0);
}

static void nulls(ferretgold_client *client) {
    ferretgold_held_entry held;
    ferretgold_place place = {0, 0};
    visits it = {client, {0}, 0, 1, false};
    uint64_t hidden = 77;
    EXPECT(ferretgold_pin_at(NULL, 0, 0, &held), 16);
    EXPECT(ferretgold_pin_at(client, 0, 0, NULL), 16);
    EXPECT(ferretgold_walk(NULL, &place, 1, note, &it), 16);
    EXPECT(ferretgold_walk(client, NULL, 1, note, &it), 16);
    EXPECT(ferretgold_walk(client, &place, 1, NULL, &it), 16);
    EXPECT(ferretgold_erase_where(NULL, NULL, NULL, &hidden), 16);
    EXPECT(hidden, 77);
}

/* A client whose handles are all out, one that is spent, and one that is idle. */
static void refusals(void) {
    stage on = filled(FERRETGOLD_MOST_SERIALS);
    const ferretgold_key key = key_of(0);
    ferretgold_handle held[HANDLES];
    ferretgold_place place = {0, SLOTS}; /* no such slot */
    visits it = {on.it, {0}, 0, 1, false};
    EXPECT(ferretgold_walk(on.it, &place, 1, note, &it), 1);
    place = (ferretgold_place){1, 3};
    EXPECT(ferretgold_walk(on.it, &place, 0, note, &it), 0);
    EXPECT(place.shard == 1 && place.slot == 3 && it.all == 0, true);
    nulls(on.it);
    for (int k = 0; k < HANDLES; k++) {
        EXPECT(ferretgold_lookup(on.it, &key, &held[k]), 0);
    }
    refused(on, FERRETGOLD_HANDLES_FULL);
    for (int k = 0; k < HANDLES; k++) {
        EXPECT(ferretgold_release(on.it, held[k], false, false, NULL), 0);
    }
    EXPECT(ferretgold_client_close(on.cache, on.it), 0);
    refused(on, FERRETGOLD_NO_CLIENT);
    nulls(on.it);
    EXPECT(ferretgold_close(on.cache, NULL), 0);
    on = filled(KEYS + KEYS / 2);
    refused(on, FERRETGOLD_SPENT);
    end(on);
}

/* ---- Erasing --------------------------------------------------------------------------------- */

static bool is_even(void *context, const ferretgold_key *key) {
    *(unsigned *)context += 1;
    return key->w0 % 2 == 0;
}

/* Is asked before the entry is hidden. */
static bool is_there_still(void *client, const ferretgold_key *key) {
    return is_there(client, key->w0);
}

/* What is meant is gone, but for what is held; and then all. */
static void erasures(void) {
    const stage on = filled(FERRETGOLD_MOST_SERIALS);
    const ferretgold_key key = key_of(2);
    ferretgold_handle held;
    uint64_t hidden = 77, entries = 77;
    unsigned asked = 0;
    EXPECT(ferretgold_lookup(on.it, &key, &held), 0);
    heap_left = 0;
    EXPECT(ferretgold_erase_where(on.it, is_even, &asked, &hidden), 0);
    heap_left = SIZE_MAX;
    EXPECT(asked, KEYS);
    EXPECT(hidden, KEYS / 2);
    for (uint64_t number = 0; number < KEYS; number++) {
        EXPECT(is_there(on.it, number), number % 2 == 1);
    }
    EXPECT(ferretgold_occupancy(on.it, &entries), 0);
    EXPECT(entries, KEYS / 2 + 1);
    EXPECT(ferretgold_release(on.it, held, false, false, NULL), 0);
    EXPECT(ferretgold_erase_where(on.it, is_there_still, on.it, &hidden), 0);
    EXPECT(hidden, KEYS / 2);
    insert(on.it, 1);
    EXPECT(ferretgold_erase_where(on.it, NULL, NULL, NULL), 0);
    EXPECT(ferretgold_occupancy(on.it, &entries), 0);
    EXPECT(entries, 0);
    end(on);
}

/* A visit may erase its entry, which stays until then, and give the handle back itself. */
static bool erase_visited(void *client, const ferretgold_held_entry *held) {
    uint32_t hidden = 77;
    bool freed = false;
    EXPECT(ferretgold_erase(client, &held->key, &hidden), 0);
    EXPECT(hidden, 1);
    (void)seen(client, held);
    EXPECT(ferretgold_release(client, held->handle, false, false, &freed), 0);
    EXPECT(freed, true);
    return true;
}

/* One that gives the client back ends the walk, and an erasure. */
static bool give_back(void *of, const ferretgold_held_entry *held) {
    const stage *on = of;
    (void)held;
    EXPECT(ferretgold_client_close_releasing(on->cache, on->it), 0);
    return true;
}

static bool give_back_and_mean(void *of, const ferretgold_key *key) {
    (void)key;
    return give_back(of, NULL);
}

static void visitors(void) {
    stage on = filled(FERRETGOLD_MOST_SERIALS);
    ferretgold_place place = {0, 0};
    uint64_t hidden = 77;
    EXPECT(ferretgold_walk(on.it, &place, UINT64_MAX, erase_visited, on.it), 1);
    EXPECT(ferretgold_erase_where(on.it, NULL, NULL, &hidden), 0);
    EXPECT(hidden, 0);
    insert(on.it, 1);
    insert(on.it, 2);
    place = (ferretgold_place){0, 0};
    EXPECT(ferretgold_walk(on.it, &place, UINT64_MAX, give_back, &on), FERRETGOLD_NO_CLIENT);
    EXPECT(ferretgold_client_open(on.cache, &on.it), 0);
    EXPECT(ferretgold_erase_where(on.it, give_back_and_mean, &on, &hidden), FERRETGOLD_NO_CLIENT);
    EXPECT(hidden, 0);
    EXPECT(ferretgold_close(on.cache, NULL), 0);
}

void walks(void) {
    where = "walk";
    walks_by_rows();
    slots();
    refusals();
    erasures();
    visitors();
}
