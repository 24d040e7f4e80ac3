/* Which entries of a file a cache begins with, that its reader is called from the front to the end, and how
 * much memory that takes: rows, drawn files against a list, and a file of as many entries as are asked for.
 * Linked with heap.c.
 * Usage: chosen rows | chosen many ENTRIES */
enum { MOST_FILE = 40 + 4096 };

#include "ferretgold_file.h"
#include "file_image.h"
#include "heap.h"

#define XXH_INLINE_ALL
#include <xxhash.h>

enum { PLACES = 6, SLOTS = 8, ROOM = 2, MOST_USES = 553651204, MOST_ROWS = 9 };
enum { ROUNDS = 200, DRAWN = 300, KEYS = 150, WIDE = 256 }; /* of drawn files */
enum { AGAIN = 5000 };

/* ---- Files ----------------------------------------------------------------------------------- */

/* An entry, and whether it comes in. */
typedef struct entry {
    uint64_t key;
    uint32_t uses, charge, length;
    bool in;
} entry;

/* A file, which is made as it is read. */
typedef struct source {
    uint64_t entries;
    const entry *listed; /* NULL: they have keys of their own, and those that come in are the first or the last */
    uint32_t length;     /* of their values */
    bool are_equal;      /* in uses: the first come in; else each has more than the one before */
    uint64_t again;      /* from which on keys come again, those of AGAIN entries before; 0: they don't */
    uint64_t given;      /* parts so far: the begin and entries */
    image part;          /* the one that is read */
    int ends;            /* calls that got fewer bytes than they asked for */
} source;

static entry entry_of(const source *from, uint64_t number) {
    const bool in = from->are_equal ? number < PLACES : number + PLACES >= from->entries;
    const bool is_again = from->again != 0 && number >= from->again;
    const uint64_t key = is_again ? number - AGAIN : number;
    const entry more = {key, from->are_equal ? 1 : (uint32_t)number, 1, from->length, in};
    return from->listed != NULL ? from->listed[number] : more;
}

static ferretgold_key key_of(uint64_t key) {
    return (ferretgold_key){key * UINT64_C(0x9e3779b97f4a7c15), ~key};
}

static uint8_t byte_of(uint64_t number, size_t at) {
    return (uint8_t)((number >> 8 * (at % 4)) + at / 4);
}

static void begin(image *part, uint64_t entries) {
    memcpy(part->bytes, "FERRETG1", 8);
    set_number(part->bytes + 8, 8, 1);
    set_number(part->bytes + 16, 8, entries);
    set_number(part->bytes + 24, 8, XXH64(part->bytes, 24, 0));
    part->length = BEGIN;
}

static void next(image *part, uint64_t number, entry it) {
    const uint64_t fields[] = {key_of(it.key).w0, key_of(it.key).w1, it.charge + ((uint64_t)it.uses << 32), it.length};
    XXH64_state_t state;
    for (size_t at = 0; at < 4; at++) {
        set_number(part->bytes + 8 * at, 8, fields[at]);
    }
    for (size_t at = 0; at < it.length; at++) {
        part->bytes[HEAD + at] = byte_of(number, at);
    }
    (void)XXH64_reset(&state, number + 1);
    (void)XXH64_update(&state, part->bytes, HEAD - 8);
    (void)XXH64_update(&state, part->bytes + HEAD, it.length);
    set_number(part->bytes + HEAD - 8, 8, XXH64_digest(&state));
    part->length = HEAD + it.length;
}

/* Nothing is read behind the end. */
static size_t read_source(void *context, void *bytes, size_t count, bool *could) {
    source *from = context;
    EXPECT(from->ends, 0);
    if (from->part.at == from->part.length && from->given <= from->entries) {
        from->part.at = 0;
        from->part.calls_left = SIZE_MAX;
        if (from->given == 0) {
            begin(&from->part, from->entries);
        } else {
            next(&from->part, from->given - 1, entry_of(from, from->given - 1));
        }
        from->given += 1;
    }
    const size_t read = read_image(&from->part, bytes, count, could);
    from->ends += read < count;
    return read;
}

static ferretgold_config config_of(uint32_t shards, uint32_t slots, uint32_t room) {
    return (ferretgold_config){.slots = slots, .room = room, .clients = 1, .handles = 1,
                               .shards = shards, .capacity = UINT64_C(1) << 40,
                               .serials = FERRETGOLD_MOST_SERIALS, .seed = 5};
}

/* Loads a file to its end, and closes the cache. */
static ferretgold_closed *loaded_of(source *from, const ferretgold_config *config,
                                    ferretgold_loaded *loaded) {
    ferretgold_cache *cache = NULL;
    ferretgold_closed *closed = NULL;
    EXPECT(ferretgold_load(config, read_source, from, false, &cache, loaded), FERRETGOLD_FILE_OK);
    EXPECT(from->ends == 1 && from->given == from->entries + 1, true);
    EXPECT(loaded->entries, from->entries);
    EXPECT(loaded->left + loaded->lost, from->entries);
    EXPECT(ferretgold_close_keeping(cache, &closed), FERRETGOLD_OK);
    return closed;
}

/* ---- What a cache has ------------------------------------------------------------------------ */

/* Whether what stands in a slot is an entry of a file. */
static bool is_entry(ferretgold_closed *closed, uint32_t shard, uint32_t slot,
                     const ferretgold_entry *is, uint64_t number, const entry *it) {
    const ferretgold_key key = key_of(it->key);
    uint8_t value[MOST_FILE];
    bool are_same = is->key.w0 == key.w0 && is->key.w1 == key.w1 && is->charge == it->charge
                    && is->uses == (it->uses < MOST_USES ? it->uses : MOST_USES)
                    && is->length == it->length && is->visible && !is->hit
                    && ferretgold_closed_value(closed, shard, slot, value, sizeof value, NULL) == FERRETGOLD_OK;
    for (size_t at = 0; are_same && at < it->length; at++) {
        are_same = value[at] == byte_of(number, at);
    }
    return are_same;
}

/* Frees what is left of a cache. Each entry that came in stands there once, with all that it had, and
 * nothing else does. `shards` gets the shard of each, and may be null. */
static void are_in(ferretgold_closed *closed, const source *from, uint64_t left, uint32_t *shards) {
    ferretgold_config config;
    ferretgold_entry is;
    uint64_t there = 0, wanted = 0, right = 0;
    EXPECT(ferretgold_closed_config(closed, &config), FERRETGOLD_OK);
    for (uint32_t place = 0; place < config.shards * config.slots; place++) {
        const uint32_t shard = place / config.slots, slot = place % config.slots;
        if (ferretgold_closed_entry(closed, shard, slot, &is) != FERRETGOLD_OK) {
            continue;
        }
        there++;
        for (uint64_t number = 0; number < from->entries; number++) {
            const entry it = entry_of(from, number);
            if (it.in && is_entry(closed, shard, slot, &is, number, &it)) {
                right++;
                if (shards != NULL) {
                    shards[it.key] = shard;
                }
            }
        }
    }
    for (uint64_t number = 0; number < from->entries; number++) {
        wanted += entry_of(from, number).in;
    }
    EXPECT(there, wanted);
    EXPECT(right, wanted);
    EXPECT(left, wanted);
    ferretgold_closed_free(closed);
}

/* ---- Rows ------------------------------------------------------------------------------------ */

/* Files for a shard of 6 places, for values of 16 bytes: a key, uses, a charge, a length and whether it comes
 * in, for each entry. */
static const struct row {
    const char *name;
    uint64_t strict; /* capacity; 0 where it isn't strict */
    entry entries[MOST_ROWS];
} all_rows[] = {
    {"those of most uses: ", 0,
     {{1, 1, 1, 9, false}, {2, 5, 1, 9, true}, {3, 3, 1, 9, true}, {4, 0, 1, 9, false},
      {5, 7, 1, 9, true}, {6, 2, 1, 9, true}, {7, 9, 1, 9, true}, {8, 4, 1, 9, true}}},
    {"of equal ones the earlier: ", 0,
     {{1, 3, 1, 9, true}, {2, 3, 1, 9, true}, {3, 3, 1, 9, true}, {4, 3, 1, 9, true},
      {5, 3, 1, 9, true}, {6, 3, 1, 9, false}, {7, 3, 1, 9, false}, {8, 4, 1, 9, true}}},
    {"uses of one to four bytes: ", 0,
     {{1, 0x100, 1, 9, false}, {2, 0xff, 1, 9, false}, {3, 0x10000, 1, 9, true},
      {4, 0xffff, 1, 9, true}, {5, 0x1000000, 1, 9, true}, {6, 0xffffff, 1, 9, true},
      {7, UINT32_MAX, 1, 9, true}, {8, 0x2000000, 1, 9, true}}},
    {"one that doesn't fit is passed over: ", 10,
     {{1, 5, 1, 9, true}, {2, 9, 4, 9, true}, {3, 8, 7, 9, false}, {4, 4, 1, 9, false},
      {5, 7, 5, 9, true}, {6, 6, 2, 9, false}}},
    {"charges pass a capacity that isn't strict: ", 0,
     {{1, 5, UINT32_MAX, 9, true}, {2, 9, UINT32_MAX, 9, true}, {3, 8, 0x12345678, 9, true}}},
    {"what was passed over had a place: ", 12,
     {{1, 9, 6, 9, true}, {2, 8, 7, 9, false}, {3, 7, 1, 9, true}, {4, 6, 1, 9, true},
      {5, 5, 1, 9, true}, {6, 4, 1, 9, true}, {7, 3, 1, 9, false}}},
    {"what no strict shard takes has none: ", 12,
     {{1, 9, 13, 9, false}, {2, 8, 7, 9, true}, {3, 7, 1, 9, true}, {4, 6, 1, 9, true},
      {5, 5, 1, 9, true}, {6, 4, 1, 9, true}, {7, 3, 1, 9, true}}},
    {"nor has a value that is too long: ", 0,
     {{1, 9, 1, 17, false}, {2, 1, 1, 16, true}, {3, 1, 1, 0, true}, {4, 1, 1, 1, true},
      {5, 1, 1, 2, true}, {6, 1, 1, 3, true}, {7, 1, 1, 4, true}, {8, 9, 1, 4096, false}}},
    {"of one key the last, which has more uses: ", 0, {{1, 1, 1, 9, false}, {1, 9, 1, 9, true}}},
    {"or fewer: ", 0, {{1, 9, 2, 9, false}, {2, 9, 1, 9, true}, {1, 1, 1, 5, true}}},
    {"or as many: ", 0, {{1, 9, 1, 9, false}, {1, 9, 1, 9, false}, {1, 9, 1, 9, true}}},
    {"or doesn't fit: ", 10,
     {{1, 9, 1, 9, false}, {2, 9, 1, 9, false}, {1, 9, 1, 17, false}, {2, 9, 11, 9, false}}},
    {"a key that had to go comes in later: ", 0,
     {{1, 1, 1, 9, false}, {2, 5, 1, 9, true}, {3, 5, 1, 9, true}, {4, 5, 1, 9, true},
      {5, 5, 1, 9, true}, {6, 5, 1, 9, true}, {7, 5, 1, 9, false}, {1, 6, 1, 9, true}}},
    {"or doesn't: ", 0,
     {{1, 1, 1, 9, false}, {2, 5, 1, 9, true}, {3, 5, 1, 9, true}, {4, 5, 1, 9, true},
      {5, 5, 1, 9, true}, {6, 5, 1, 9, true}, {7, 5, 1, 9, true}, {1, 4, 1, 9, false}}},
    {"what went for an earlier one stays out: ", 0,
     {{1, 9, 1, 9, false}, {2, 5, 1, 9, true}, {3, 5, 1, 9, true}, {4, 5, 1, 9, true},
      {5, 5, 1, 9, true}, {6, 5, 1, 9, true}, {7, 5, 1, 9, false}, {1, 1, 1, 9, true}}},
};

static void each_row(void) {
    for (const struct row *row = all_rows; row < all_rows + sizeof all_rows / sizeof *all_rows; row++) {
        ferretgold_config config = config_of(1, SLOTS, ROOM);
        ferretgold_loaded loaded = {77, 77, 77};
        source from = {.listed = row->entries};
        where = row->name;
        config.strict = row->strict != 0;
        config.capacity = config.strict ? row->strict : 1;
        while (from.entries < MOST_ROWS && row->entries[from.entries].charge != 0) {
            from.entries++;
        }
        ferretgold_closed *closed = loaded_of(&from, &config, &loaded);
        are_in(closed, &from, loaded.left, NULL);
    }
    where = "";
}

/* ---- Drawn files ----------------------------------------------------------------------------- */

static uint64_t random_below(uint64_t end) {
    static uint64_t state = 1;
    state += UINT64_C(0x9e3779b97f4a7c15);
    uint64_t z = state;
    z = (z ^ z >> 30) * UINT64_C(0xbf58476d1ce4e5b9);
    z = (z ^ z >> 27) * UINT64_C(0x94d049bb133111eb);
    return (z ^ z >> 31) % end;
}

/* Which entry a shard would let go first, or take last: `count` if it has none. */
static uint64_t least(const entry *entries, uint64_t count, const uint32_t *shards, uint32_t shard) {
    uint64_t least = count;
    for (uint64_t at = 0; at < count; at++) {
        if (entries[at].in && shards[entries[at].key] == shard
            && (least == count || entries[at].uses <= entries[least].uses)) {
            least = at;
        }
    }
    return least;
}

/* Says of an entry, and of those before it, whether they are chosen so far. */
static void choose(entry *entries, uint64_t at, const uint32_t *shards, const ferretgold_config *config) {
    const uint32_t shard = shards[entries[at].key];
    uint32_t count = 0;
    for (uint64_t before = 0; before < at; before++) {
        entries[before].in = entries[before].in && entries[before].key != entries[at].key;
        count += entries[before].in && shards[entries[before].key] == shard;
    }
    entries[at].in = entries[at].length <= 8 * ROOM
                     && (!config->strict || entries[at].charge <= (config->capacity - 1) / config->shards + 1);
    if (entries[at].in && count == config->slots * 84 / 100) {
        entries[least(entries, at + 1, shards, shard)].in = false;
    }
}

/* Of those that were chosen some don't fit into a shard of strict capacity. */
static void pass_over(entry *entries, uint64_t count, const uint32_t *shards, uint32_t shard, uint64_t capacity) {
    bool come[DRAWN] = {false};
    uint64_t order[DRAWN], chosen = 0, sum = 0;
    for (uint64_t at = least(entries, count, shards, shard); at < count; at = least(entries, count, shards, shard)) {
        order[chosen++] = at;
        entries[at].in = false;
    }
    while (chosen-- > 0) {
        come[order[chosen]] = sum + entries[order[chosen]].charge <= capacity;
        sum += come[order[chosen]] ? entries[order[chosen]].charge : 0;
    }
    for (uint64_t at = 0; at < count; at++) {
        entries[at].in = entries[at].in || come[at];
    }
}

/* Has the shard of each key by a cache that takes all of them. */
static void find_shards(const ferretgold_config *config, uint32_t *shards) {
    entry keys[KEYS];
    source from = {.listed = keys, .entries = KEYS};
    ferretgold_config wide = *config;
    ferretgold_loaded loaded;
    for (uint64_t key = 0; key < KEYS; key++) {
        keys[key] = (entry){key, 1, 1, 9, true};
    }
    wide.slots = WIDE;
    wide.strict = false;
    ferretgold_closed *closed = loaded_of(&from, &wide, &loaded);
    are_in(closed, &from, loaded.left, shards);
}

/* Draws a file, and says what comes of it into a shard of this capacity. */
static void draw(source *from, entry *entries, const ferretgold_config *config, uint64_t capacity) {
    const uint64_t rise = random_below(3), range = UINT64_C(1) << random_below(10);
    uint32_t shards[KEYS];
    find_shards(config, shards);
    *from = (source){.listed = entries, .entries = random_below(DRAWN + 1)};
    for (uint64_t at = 0; at < from->entries; at++) {
        entries[at] = (entry){random_below(KEYS), (uint32_t)(rise * at + random_below(range)),
                              1 + (uint32_t)random_below(8), (uint32_t)random_below(8 * ROOM + 2), false};
        choose(entries, at, shards, config);
    }
    for (uint32_t shard = 0; config->strict && shard < config->shards; shard++) {
        pass_over(entries, from->entries, shards, shard, capacity);
    }
}

/* Of files in which keys come again those entries come in that a list says, in caches of several shards, too. */
static void drawn(void) {
    static const uint64_t seeds[] = {5, FERRETGOLD_UNSEEDED, UINT64_C(0xfedcba9876543210)};
    for (int round = 0; round < ROUNDS; round++) {
        entry entries[DRAWN];
        source from;
        ferretgold_config config = config_of(1U << random_below(4), SLOTS << random_below(3), ROOM);
        ferretgold_loaded loaded;
        const uint64_t capacity = 4 + random_below(4 * config.slots);
        config.seed = seeds[random_below(3)];
        config.strict = random_below(2) == 0;
        config.capacity = (capacity - 1) * config.shards + 1; /* rounded up */
        draw(&from, entries, &config, capacity);
        ferretgold_closed *closed = loaded_of(&from, &config, &loaded);
        are_in(closed, &from, loaded.left, NULL);
    }
}

/* ---- Memory ---------------------------------------------------------------------------------- */

/* Loads a file, which takes no more memory than is promised, and closes the cache. */
static ferretgold_closed *bounded(source *from, const ferretgold_config *config,
                                  ferretgold_loaded *loaded) {
    const uint64_t memory = ferretgold_memory(config), before = heap_bytes;
    heap_most = heap_bytes;
    ferretgold_closed *closed = loaded_of(from, config, loaded);
    const uint64_t most = heap_most - before;
    if (most > (config->shards == 1 ? 3 : 2) * memory + 65536 || most < memory) {
        printf("%u shards of %u slots, room %u, length %u: %llu bytes, of %llu\n", config->shards,
               config->slots, config->room, from->length, (unsigned long long)most,
               (unsigned long long)memory);
        faults++;
    }
    return closed;
}

/* Caches of more and more slots, for values of this length, are filled by files of more entries than fit. */
static void filled(ferretgold_config config, uint32_t length) {
    const uint32_t most = 1 << 16;
    for (; config.slots * config.shards <= most / 8 && config.slots * config.shards * config.room <= most;
         config.slots *= 4) {
        source from = {.entries = 3 * config.slots * config.shards, .length = length};
        ferretgold_loaded loaded;
        ferretgold_closed *closed = bounded(&from, &config, &loaded);
        EXPECT(loaded.left, config.shards * (config.slots * 84 / 100));
        ferretgold_closed_free(closed);
    }
}

static void each_size(void) {
    static const uint32_t shards[] = {1, 2, 4, 64}, rooms[] = {1, 2, 8, 64, 512};
    for (size_t at = 0; at < sizeof shards / sizeof *shards; at++) {
        for (size_t room = 0; room < sizeof rooms / sizeof *rooms; room++) {
            filled(config_of(shards[at], SLOTS, rooms[room]), 0);
            filled(config_of(shards[at], SLOTS, rooms[room]), 8 * rooms[room]);
        }
    }
}

/* Many entries for a shard of few slots, of equal uses and of others. */
static void many(uint64_t entries) {
    const ferretgold_config config = config_of(1, SLOTS, ROOM);
    for (int are_equal = 0; are_equal < 2; are_equal++) {
        source from = {.entries = entries, .length = 8 * ROOM, .are_equal = are_equal};
        ferretgold_loaded loaded;
        ferretgold_closed *closed = bounded(&from, &config, &loaded);
        are_in(closed, &from, loaded.left, NULL);
    }
}

/* More entries than two bytes count, of more and more uses, for shards of the most slots: those from `first` on
 * come in, of one key the last, each with all that it had. */
static void largest(uint32_t shards, source from, uint64_t first, uint64_t left) {
    enum { MOST_SLOTS = 65536, MOST = 70000 };
    const ferretgold_config config = config_of(shards, MOST_SLOTS, 1);
    ferretgold_loaded loaded;
    ferretgold_entry is;
    static bool seen[MOST];
    uint64_t whole = 0;
    ferretgold_closed *closed = loaded_of(&from, &config, &loaded);
    memset(seen, 0, sizeof seen);
    for (uint32_t place = 0; place < shards * MOST_SLOTS; place++) {
        const uint32_t shard = place / MOST_SLOTS, slot = place % MOST_SLOTS;
        if (ferretgold_closed_entry(closed, shard, slot, &is) == FERRETGOLD_OK) {
            const uint64_t key = ~is.key.w1;
            const bool is_again = from.again != 0 && key + AGAIN >= from.again && key + AGAIN < from.entries;
            const uint64_t number = is_again ? key + AGAIN : key;
            const entry it = entry_of(&from, number);
            EXPECT(number >= first && number < from.entries && !seen[number], true);
            EXPECT(is_entry(closed, shard, slot, &is, number, &it), true);
            seen[number] = true;
            whole++;
        }
    }
    EXPECT(whole, left);
    EXPECT(loaded.left, left);
    ferretgold_closed_free(closed);
}

int main(int count, char **words) {
    heap_left = SIZE_MAX;
    if (count == 2 && strcmp(words[1], "rows") == 0) {
        each_row();
        drawn();
        each_size();
        many(70000);
        largest(1, (source){.entries = 60000, .length = 8}, 60000 - 55050, 55050);
        largest(1, (source){.entries = 65000, .length = 8, .again = 60000}, 60000 - 55050, 55050);
        largest(2, (source){.entries = 70000, .length = 8}, 0, 70000);
    } else if (count == 3 && strcmp(words[1], "many") == 0) {
        many(strtoull(words[2], NULL, 10));
    } else {
        fputs("usage: chosen rows | chosen many ENTRIES\n", stderr);
        return 2;
    }
    EXPECT(heap_blocks, 0);
    return faults == 0 ? 0 : 1;
}
