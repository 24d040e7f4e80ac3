/* Plays traces of calls through ferretgold.h alone, and compares each answer with the one recorded
 * beside its call; then tries what no trace shows (edges.c, order.c, counted.c, seeds.c, budgets.c,
 * closed.c, image.c, walk.c). It is what tests/c/plant.py tries planted bugs by.
 * Usage: play FILE.. where a file has cases as tests/program/calls has, and two letters more:
 *     c T k0 k1 U|N n     reads a key's value to a buffer of n bytes: value V, short LENGTH, miss
 *     c Q k0 k1 U|N o n   reads a part of it, from byte o on: value V of LENGTH, miss, refused WHY
 */
#include "expect.h"
#include "heap.h"

#include <inttypes.h>
#include <stdlib.h>
#include <string.h>

enum { CLIENTS = 4, REGISTERS = 16384, BYTES = 64, WORDS = 12, TEXT = 256 };

int faults = 0;
const char *where = "";

void expect(const char *file, int line, const char *what, long long is, long long wanted) {
    if (is != wanted) {
        printf("%s: %s, line %d: %s is %lld, not %lld\n", where, file, line, what, is, wanted);
        faults++;
    }
}

/* ---- Traces ---------------------------------------------------------------------------------- */

/* A register of a client: a handle, and the key that it was got by. */
typedef struct place {
    bool full;
    ferretgold_handle handle;
    ferretgold_key key;
} place;

static place registers[CLIENTS][REGISTERS];
static ferretgold_config config;
static ferretgold_cache *cache;
static ferretgold_client *clients[CLIENTS];

static const char *refusal_of(ferretgold_status status) {
    static const char *const names[] = {"HandlesFull", "Spent", "TooLarge", "CapacityFull",
                                        "OccupancyFull"};
    return status >= 23 && status <= 27 ? names[status - 23] : "?";
}

static uint64_t number(const char *word) {
    return strtoull(word, NULL, 10);
}

static ferretgold_key key_of(char **words) {
    ferretgold_key key = {number(words[0]), number(words[1])};
    return key;
}

static ferretgold_priority priority_of(const char *word) {
    return *word == 'H' ? FERRETGOLD_HIGH : *word == 'L' ? FERRETGOLD_LOW : FERRETGOLD_BOTTOM;
}

/* The bytes of a value in hexadecimal; `-` has none. */
static size_t bytes_of(const char *word, unsigned char *bytes) {
    size_t length = 0;
    for (; *word != '-' && word[2 * length] != 0; length++) {
        unsigned byte = 0;
        sscanf(word + 2 * length, "%2x", &byte);
        bytes[length] = (unsigned char)byte;
    }
    return length;
}

static void say_value(char *out, const unsigned char *bytes, size_t length) {
    out += sprintf(out, "value %s", length == 0 ? "-" : "");
    for (size_t k = 0; k < length; k++) {
        out += sprintf(out, "%02x", bytes[k]);
    }
}

/* How many insertions of a client met their key. */
static uint64_t met_by(ferretgold_client *it) {
    ferretgold_stats stats;
    EXPECT(ferretgold_statistics(it, &stats), 0);
    return stats.boosts;
}

/* The words of an entry, from its key on: key, charge, priority, value. A trace says that one which met
 * its key is dropped. */
static void insert(ferretgold_client *it, place *into, char **words, char *out) {
    static const char *const came[] = {[FERRETGOLD_PLACED] = "placed",
                                       [FERRETGOLD_DROPPED] = "dropped",
                                       [FERRETGOLD_STANDALONE] = "standalone",
                                       [FERRETGOLD_THERE] = "dropped"};
    unsigned char bytes[BYTES] = {0};
    ferretgold_key key = key_of(words);
    const uint32_t charge = (uint32_t)number(words[2]);
    const size_t length = bytes_of(words[4], bytes);
    const void *value = length == 0 ? NULL : bytes;
    const uint64_t left = ferretgold_serials_left(it);
    const uint32_t held = ferretgold_held(it);
    const uint64_t met = met_by(it);
    ferretgold_inserted inserted = (ferretgold_inserted)7;
    ferretgold_handle handle = {0, 77, 0, 0};
    ferretgold_status status =
        into == NULL ? ferretgold_insert(it, &key, value, length, charge, priority_of(words[3]),
                                         &inserted)
                     : ferretgold_insert_pinned(it, &key, value, length, charge,
                                                priority_of(words[3]), &inserted, &handle);
    if (status == 0) {
        sprintf(out, "%s", (int)inserted < 4 ? came[inserted] : "?");
        EXPECT(inserted == FERRETGOLD_THERE, into == NULL && met_by(it) > met);
        EXPECT(left - ferretgold_serials_left(it), 1);
    } else {
        sprintf(out, "refused %s", refusal_of(status));
        EXPECT(inserted, 7);
        EXPECT(ferretgold_held(it), held);
        EXPECT(left - ferretgold_serials_left(it), status == 26 || status == 27);
    }
    if (into != NULL) {
        EXPECT(ferretgold_holds(it, handle), status == 0);
        *into = (place){status == 0, handle, key};
    }
}

static void look(ferretgold_client *it, place *into, char **words, char *out) {
    ferretgold_key key = key_of(words);
    const uint32_t held = ferretgold_held(it);
    ferretgold_handle handle = {0, 77, 0, 0};
    ferretgold_status status = ferretgold_lookup(it, &key, &handle);
    EXPECT(ferretgold_holds(it, handle), status == 0);
    EXPECT(ferretgold_held(it), held + (status == 0));
    if (status != 0) {
        EXPECT(handle.serial, 77);
    }
    *into = (place){status == 0, handle, key};
    if (status > 1) {
        sprintf(out, "refused %s", refusal_of(status));
    } else {
        sprintf(out, "%s", status == 0 ? "hit" : "miss");
    }
}

static void again(ferretgold_client *it, place *into, const place *from, char *out) {
    ferretgold_handle handle = {0, 77, 0, 0};
    ferretgold_status status = ferretgold_reref(it, from->handle, &handle);
    EXPECT(ferretgold_holds(it, handle), status == 0);
    EXPECT(ferretgold_holds(it, from->handle), true);
    if (status != 0) {
        EXPECT(handle.serial, 77);
        sprintf(out, "refused %s", refusal_of(status));
        return;
    }
    EXPECT(handle.serial != from->handle.serial, true);
    *into = (place){true, handle, from->key};
    sprintf(out, "held");
}

static void release(ferretgold_client *it, place *from, bool useful, bool erase, char *out) {
    const uint32_t held = ferretgold_held(it);
    bool freed = false, stays = true;
    EXPECT(ferretgold_release(it, from->handle, useful, erase, &freed), 0);
    EXPECT(ferretgold_held(it), held - 1);
    EXPECT(ferretgold_holds(it, from->handle), false);
    EXPECT(ferretgold_release(it, from->handle, useful, erase, &stays), 17);
    EXPECT(stays, true);
    from->full = false;
    sprintf(out, "%s", freed ? "freed" : "kept");
}

/* A part of a value of these bytes is what stands there, and nothing behind it changes. */
static void read_part(ferretgold_client *it, const place *from, const unsigned char *bytes,
                      size_t length, size_t offset, size_t capacity) {
    unsigned char got[BYTES];
    ferretgold_part part = {7, 7};
    const size_t left = offset < length ? length - offset : 0;
    const size_t given = left < capacity ? left : capacity;
    memset(got, 0x5a, sizeof got);
    EXPECT(ferretgold_read_part(it, from->handle, offset, got, capacity, &part), 0);
    EXPECT(part.given == given && part.length == length, true);
    EXPECT(memcmp(got, bytes + (offset < length ? offset : 0), given), 0);
    EXPECT(got[given], 0x5a);
}

static void read_value(ferretgold_client *it, const place *from, char *out) {
    unsigned char bytes[BYTES];
    size_t length = 0, copied = 0;
    ferretgold_key key = {0, 0};
    EXPECT(ferretgold_handle_key(it, from->handle, &key), 0);
    EXPECT(key.w0 == from->key.w0 && key.w1 == from->key.w1, true);
    EXPECT(ferretgold_value_len(it, from->handle, &length), 0);
    memset(bytes, 0x5a, sizeof bytes);
    if (length > 0) {
        EXPECT(ferretgold_read_value(it, from->handle, bytes, length - 1, &copied), 20);
        EXPECT(copied, length);
        EXPECT(bytes[0], 0x5a);
    }
    copied = length + 7;
    EXPECT(ferretgold_read_value(it, from->handle, bytes, length, NULL), 0);
    EXPECT(ferretgold_read_value(it, from->handle, bytes, length + 1, &copied), 0);
    EXPECT(copied, length);
    EXPECT(bytes[length], 0x5a);
    const size_t offsets[] = {0, 1, 7, 8, 9, length / 2, length - 1, length, length + 1, SIZE_MAX};
    for (size_t k = 0; k < sizeof offsets / sizeof offsets[0]; k++) {
        read_part(it, from, bytes, length, offsets[k], 0);
        read_part(it, from, bytes, length, offsets[k], 9);
        read_part(it, from, bytes, length, offsets[k], length + 1);
    }
    EXPECT(ferretgold_read_part(it, from->handle, 0, NULL, 0, NULL), 0);
    say_value(out, bytes, length);
}

/* A key, whether the reading is a use, and how long the buffer is. */
static void get(ferretgold_client *it, char **words, char *out) {
    unsigned char bytes[BYTES];
    ferretgold_key key = key_of(words);
    size_t length = 77;
    const size_t capacity = (size_t)number(words[3]);
    memset(bytes, 0x5a, sizeof bytes);
    ferretgold_status status = ferretgold_get(it, &key, capacity == 0 ? NULL : bytes, capacity,
                                              *words[2] == 'U', &length);
    EXPECT(bytes[status == 0 ? length : 0], 0x5a);
    if (status == 0) {
        say_value(out, bytes, length);
    } else if (status == 20) {
        sprintf(out, "short %zu", length);
    } else {
        EXPECT(length, 77);
        sprintf(out, "%s", status == 1 ? "miss" : "?");
    }
}

/* A key, whether the reading is a use, where it begins, and how long the buffer is. */
static void get_part(ferretgold_client *it, char **words, char *out) {
    unsigned char bytes[BYTES];
    ferretgold_key key = key_of(words);
    ferretgold_part part = {77, 77};
    const size_t offset = (size_t)number(words[3]), capacity = (size_t)number(words[4]);
    const uint64_t left = ferretgold_serials_left(it);
    const uint32_t held = ferretgold_held(it);
    memset(bytes, 0x5a, sizeof bytes);
    const ferretgold_status status =
        ferretgold_get_part(it, &key, offset, capacity == 0 ? NULL : bytes, capacity,
                            *words[2] == 'U', &part);
    EXPECT(left - ferretgold_serials_left(it), status == 0);
    EXPECT(ferretgold_held(it), held);
    EXPECT(bytes[status == 0 ? part.given : 0], 0x5a);
    EXPECT(part.given == 77 && part.length == 77, status != 0);
    if (status == 0) {
        say_value(out, bytes, part.given);
        sprintf(out + strlen(out), " of %zu", part.length);
    } else if (status == 1) {
        sprintf(out, "miss");
    } else {
        sprintf(out, "refused %s", refusal_of(status));
    }
}

static void totals(ferretgold_client *it, char *out) {
    uint64_t usage = 0, pinned = 0, occupancy = 0;
    EXPECT(ferretgold_usage(it, &usage), 0);
    EXPECT(ferretgold_pinned_usage(it, &pinned), 0);
    EXPECT(ferretgold_occupancy(it, &occupancy), 0);
    sprintf(out, "usage %" PRIu64 " pinned %" PRIu64 " occupancy %" PRIu64, usage, pinned,
            occupancy);
}

static void slot(ferretgold_client *it, char **words, char *out) {
    uint64_t word = 0, displacement = 77;
    const uint32_t shard = (uint32_t)number(words[0]), of = (uint32_t)number(words[1]);
    EXPECT(ferretgold_word(it, shard, of, &word), 0);
    EXPECT(ferretgold_displacement(it, shard, of, &displacement), 0);
    sprintf(out, "word %016" PRIx64 " displaced %" PRIu64, word, displacement);
}

static void statistics(ferretgold_client *it, char *out) {
    ferretgold_stats s = {0, 0, 0, 0, 0, 0, 0, 0};
    EXPECT(ferretgold_statistics(it, &s), 0);
    sprintf(out,
            "stats probes %" PRIu64 " boosts %" PRIu64 " evicted %" PRIu64 " hit %" PRIu64
            " freed %" PRIu64 " turns %" PRIu64 " corrections %" PRIu64 " lost %" PRIu64,
            s.probes, s.boosts, s.evicted, s.evicted_hit, s.freed, s.turns, s.corrections, s.lost);
}

static void play(char **words, char *out) {
    const size_t c = (size_t)number(words[0]);
    ferretgold_client *it = clients[c];
    place *first = words[2] == NULL ? NULL : &registers[c][number(words[2]) % REGISTERS];
    const char letter = *words[1];
    const bool fills = letter == 'P' || letter == 'G' || letter == 'F';
    place *from = letter == 'F' ? &registers[c][number(words[3])] : first;
    if (fills && first->full) {
        sprintf(out, "busy");
    } else if ((letter == 'F' || letter == 'R' || letter == 'V') && !from->full) {
        sprintf(out, "none");
    } else if (letter == 'E') {
        ferretgold_key key = key_of(words + 2);
        uint32_t hidden = 77;
        EXPECT(ferretgold_erase(it, &key, &hidden), 0);
        sprintf(out, "erased %" PRIu32, hidden);
    } else {
        switch (letter) {
        case 'I': insert(it, NULL, words + 2, out); break;
        case 'P': insert(it, first, words + 3, out); break;
        case 'G': look(it, first, words + 3, out); break;
        case 'F': again(it, first, from, out); break;
        case 'R': release(it, first, *words[3] == 'U', *words[4] == 'E', out); break;
        case 'V': read_value(it, first, out); break;
        case 'T': get(it, words + 2, out); break;
        case 'Q': get_part(it, words + 2, out); break;
        case 'U': totals(it, out); break;
        case 'W': slot(it, words + 2, out); break;
        case 'S': statistics(it, out); break;
        default: sprintf(out, "?");
        }
    }
}

/* Sets a field of the configuration by its name. */
static void set(const char *name, uint64_t wide) {
    const uint32_t narrow = (uint32_t)wide;
    struct { const char *name; uint32_t *field; } const fields[] = {
        {"slots", &config.slots},     {"room", &config.room},     {"clients", &config.clients},
        {"handles", &config.handles}, {"shards", &config.shards}};
    struct { const char *name; uint64_t *field; } const wides[] = {
        {"capacity", &config.capacity}, {"serials", &config.serials}, {"seed", &config.seed}};
    for (size_t k = 0; k < 5; k++) {
        *fields[k].field = strcmp(name, fields[k].name) == 0 ? narrow : *fields[k].field;
    }
    for (size_t k = 0; k < 3; k++) {
        *wides[k].field = strcmp(name, wides[k].name) == 0 ? wide : *wides[k].field;
    }
    config.strict = config.strict || strcmp(name, "strict") == 0;
    config.marks = config.marks || strcmp(name, "marks") == 0;
}

/* The cache of a case, by its options. */
static void begin(char **words) {
    config = (ferretgold_config){.slots = 8, .room = 2, .clients = 1, .handles = 8, .shards = 1,
                                 .capacity = 600, .serials = FERRETGOLD_MOST_SERIALS};
    for (; *words != NULL; words++) {
        if (strncmp(*words, "--", 2) == 0) {
            set(*words + 2, words[1] == NULL ? 0 : number(words[1]));
        }
    }
    config.seed = config.seed != 0 ? config.seed : FERRETGOLD_UNSEEDED; /* as traces have it */
    memset(registers, 0, sizeof registers);
    memset(clients, 0, sizeof clients);
    EXPECT(ferretgold_open(&config, &cache), 0);
    for (uint32_t k = 0; k < config.clients; k++) {
        ferretgold_client *client = NULL;
        EXPECT(ferretgold_client_open(cache, &client), 0);
        clients[ferretgold_client_number(client)] = client;
    }
}

/* Gives all back and closes, and says what was left. */
static void end(char *out) {
    ferretgold_totals left = {1, 2, 3, 4};
    for (uint32_t c = 0; c < config.clients; c++) {
        for (size_t k = 0; k < REGISTERS; k++) {
            if (registers[c][k].full) {
                EXPECT(ferretgold_client_close(cache, clients[c]), 38);
                release(clients[c], &registers[c][k], false, false, out);
            }
        }
        EXPECT(ferretgold_close(cache, &left), 39);
        EXPECT(left.slot_count, 4);
        EXPECT(ferretgold_client_close(cache, clients[c]), 0);
    }
    EXPECT(ferretgold_close(cache, &left), 0);
    sprintf(out,
            "{\"charges\":%" PRIu64 ",\"occupied\":%" PRIu64 ",\"slots\":%" PRIu64
            ",\"usage\":%" PRIu64 "}",
            left.slot_charges, left.occupied, left.slot_count, left.usage);
}

/* Plays the cases of a file. */
static void play_file(const char *path) {
    static char line[1 << 12], name[TEXT];
    FILE *file = fopen(path, "r");
    if (file == NULL) {
        perror(path);
        exit(2);
    }
    while (fgets(line, sizeof line, file) != NULL) {
        char out[1 << 10] = "", copy[1 << 12], *words[WORDS] = {NULL};
        line[strcspn(line, "\n")] = 0;
        strcpy(copy, line);
        char *bar = strstr(copy, strncmp(line, "==", 2) == 0 ? " : " : " | ");
        const char *wanted = line;
        if (bar != NULL) {
            *bar = 0;
            wanted = line + (bar - copy) + 3;
        }
        char *from = strncmp(line, "==", 2) != 0 ? copy : bar == NULL ? NULL : bar + 3;
        int count = 0;
        for (char *at = from == NULL ? NULL : strtok(from, " "); at != NULL && count < WORDS - 1;
             at = strtok(NULL, " ")) {
            words[count++] = at;
        }
        if (strncmp(line, "==", 2) == 0) {
            snprintf(name, sizeof name, "%.200s", copy);
            where = name;
            begin(words);
        } else if (line[0] == '{') {
            end(out);
        } else if (bar != NULL) {
            play(words, out);
        } else {
            continue;
        }
        if (strncmp(line, "==", 2) != 0 && strcmp(out, wanted) != 0) {
            printf("%s: %s\n    gives %s\n", name, line, out);
            faults++;
        }
    }
    fclose(file);
}

int main(int count, char **files) {
    edges();
    orders();
    counted();
    seeds();
    budgets();
    closed_caches();
    images();
    walks();
    EXPECT(heap_blocks, 0);
    for (int k = 1; k < count; k++) {
        play_file(files[k]);
        EXPECT(heap_blocks, 0);
    }
    printf("play: %d faults\n", faults);
    return faults != 0;
}
