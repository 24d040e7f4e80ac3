/* Threads read values while others erase them, evict them and insert new ones: each value that is
 * read is that of one insertion of its key, from the first byte to the last, and it wasn't erased
 * before. The first that isn't ends the program.
 * Usage: readers [READS]     so many of the readers together: 4,000,000 by default */
#include "ferretgold.h"

#include <pthread.h>
#include <stdatomic.h>
#include <stdio.h>
#include <stdlib.h>
#include <string.h>

enum { READERS = 4, WRITERS = 4, KEYS = 64, SHORTEST = 16, LONGEST = 300, ROOM = 38, REST = 0x5a };

/* Which insertion a value is of. */
typedef struct insertion {
    uint64_t number, key, length;
} insertion;

/* Of a key, which one writer inserts and erases: the insertion that was begun last, and the last one
 * that is erased, with all before it. */
typedef struct history {
    _Alignas(64) _Atomic uint64_t begun, erased;
} history;

typedef struct counts {
    uint64_t reads, hits, shorts, insertions, placed, erasures, evictions;
} counts;

typedef struct worker {
    ferretgold_client *client;
    uint64_t number, state, reads;
    counts did;
    uint8_t buffer[8 * ROOM], wanted[8 * ROOM];
} worker;

static history of[KEYS];
static atomic_bool stop;

/* Ends the program at the first fault, and says of which key it is. */
static void must(bool is, const char *what, uint64_t key, uint64_t number) {
    if (!is) {
        fprintf(stderr, "readers: 1 wrong: key %llu, %s %llu\n", (unsigned long long)key, what,
                (unsigned long long)number);
        _Exit(1);
    }
}

static uint64_t drawn(worker *it, uint64_t below) {
    it->state = it->state * UINT64_C(6364136223846793005) + 1442695040888963407;
    return (it->state >> 33) % below;
}

/* The word of a value that has so many words before it: the first one says which insertion it is
 * of, and the others follow from that. */
static uint64_t word_of(insertion it, uint64_t place) {
    uint64_t word = it.number << 15 | it.length << 6 | it.key;
    if (place > 0) {
        word = (word + place * UINT64_C(0x9e3779b97f4a7c15)) * UINT64_C(0xbf58476d1ce4e5b9);
        word = (word ^ word >> 31) * UINT64_C(0x94d049bb133111eb);
        word ^= word >> 29;
    }
    return word;
}

/* A buffer with a value at its front. */
static void make_buffer(insertion it, uint8_t *buffer) {
    memset(buffer, REST, 8 * ROOM);
    for (uint64_t k = 0; 8 * k < it.length; k++) {
        const uint64_t word = word_of(it, k), left = it.length - 8 * k;
        memcpy(buffer + 8 * k, &word, left < 8 ? left : 8);
    }
}

static insertion insertion_of(const uint8_t *value) {
    uint64_t word;
    memcpy(&word, value, sizeof word);
    return (insertion){word >> 15, word % KEYS, word >> 6 & 511};
}

/* Reads a key's value: each byte of the buffer is looked at. */
static void reads(worker *it, uint64_t key) {
    const ferretgold_key name = {key, 1};
    const size_t capacity = drawn(it, 16) == 0 ? drawn(it, LONGEST) : sizeof it->buffer;
    const uint64_t erased = atomic_load(&of[key].erased);
    insertion read = {0};
    size_t length = 0;
    memset(it->buffer, REST, sizeof it->buffer);
    const ferretgold_status status =
        ferretgold_get(it->client, &name, it->buffer, capacity, drawn(it, 4) == 0, &length);
    it->did.reads += 1;
    if (status == FERRETGOLD_OK) {
        it->did.hits += 1;
        read = insertion_of(it->buffer);
        must(read.key == key, "a value of key", key, read.key);
        must(read.length == length && length <= capacity, "a value of length", key, length);
        must(read.number > erased && read.number <= atomic_load(&of[key].begun),
             "a value of insertion", key, read.number);
    } else if (status == FERRETGOLD_TOO_SHORT) {
        it->did.shorts += 1;
        must(length > capacity && length <= LONGEST, "a length of", key, length);
    } else {
        must(status == FERRETGOLD_MISS, "status", key, status);
    }
    make_buffer(read, it->wanted);
    for (size_t k = 0; k < sizeof it->buffer; k++) {
        must(it->buffer[k] == it->wanted[k], "byte", key, k);
    }
}

static void inserts(worker *it, uint64_t key) {
    const ferretgold_key name = {key, 1};
    const insertion new = {atomic_load(&of[key].begun) + 1, key,
                           SHORTEST + drawn(it, LONGEST - SHORTEST + 1)};
    ferretgold_inserted came = FERRETGOLD_DROPPED;
    make_buffer(new, it->buffer);
    atomic_store(&of[key].begun, new.number);
    const ferretgold_status status = ferretgold_insert(
        it->client, &name, it->buffer, new.length, 1, (ferretgold_priority)drawn(it, 3), &came);
    must(status == FERRETGOLD_OK, "an insertion's status", key, status);
    it->did.insertions += 1;
    it->did.placed += came == FERRETGOLD_PLACED;
}

static void erases(worker *it, uint64_t key) {
    const ferretgold_key name = {key, 1};
    const ferretgold_status status = ferretgold_erase(it->client, &name, NULL);
    must(status == FERRETGOLD_OK, "an erasure's status", key, status);
    it->did.erasures += 1;
    atomic_store(&of[key].erased, atomic_load(&of[key].begun));
}

static void *work_of_reader(void *argument) {
    worker *it = argument;
    for (uint64_t k = 0; k < it->reads; k++) {
        reads(it, drawn(it, KEYS));
    }
    return NULL;
}

static void *work_of_writer(void *argument) {
    worker *it = argument;
    while (!atomic_load(&stop)) {
        const uint64_t key = drawn(it, KEYS / WRITERS) * WRITERS + it->number % WRITERS;
        const uint64_t what = drawn(it, 8);
        if (what < 4) {
            inserts(it, key);
        } else if (what < 6) {
            erases(it, key);
        } else {
            reads(it, key);
        }
    }
    return NULL;
}

static void add(counts *sum, const worker *it) {
    ferretgold_stats stats;
    must(ferretgold_statistics(it->client, &stats) == FERRETGOLD_OK, "statistics", 0, 0);
    sum->reads += it->did.reads;
    sum->hits += it->did.hits;
    sum->shorts += it->did.shorts;
    sum->insertions += it->did.insertions;
    sum->placed += it->did.placed;
    sum->erasures += it->did.erasures;
    sum->evictions += stats.evicted;
}

/* All threads on one cache of so many slots, until the readers have read so often. */
static void round_of(uint32_t slots, bool marks, uint64_t each, counts *sum) {
    const ferretgold_config config = {.slots = slots, .room = ROOM, .clients = READERS + WRITERS,
                                      .handles = 1, .shards = 1, .marks = marks, .capacity = 1000,
                                      .serials = FERRETGOLD_MOST_SERIALS, .seed = 1};
    worker workers[READERS + WRITERS] = {0};
    pthread_t ids[READERS + WRITERS];
    ferretgold_cache *cache = NULL;
    for (unsigned k = 0; k < KEYS; k++) {
        atomic_store(&of[k].begun, 0);
        atomic_store(&of[k].erased, 0);
    }
    atomic_store(&stop, false);
    must(ferretgold_open(&config, &cache) == FERRETGOLD_OK, "opening", 0, slots);
    for (uint64_t k = 0; k < READERS + WRITERS; k++) {
        workers[k].number = workers[k].state = k;
        workers[k].reads = each;
        must(ferretgold_client_open(cache, &workers[k].client) == FERRETGOLD_OK, "client", 0, k);
        must(pthread_create(&ids[k], NULL, k < READERS ? work_of_reader : work_of_writer,
                            &workers[k]) == 0, "thread", 0, k);
    }
    for (uint64_t k = 0; k < READERS + WRITERS; k++) {
        must(pthread_join(ids[k], NULL) == 0, "thread", 0, k);
        atomic_store(&stop, k + 1 >= READERS);
        add(sum, &workers[k]);
        must(ferretgold_client_close(cache, workers[k].client) == FERRETGOLD_OK, "client", 0, k);
    }
    ferretgold_totals totals;
    must(ferretgold_close(cache, &totals) == FERRETGOLD_OK, "closing", 0, slots);
    must(totals.usage == totals.slot_charges, "usage", 0, totals.usage);
}

int main(int count, char **words) {
    const uint64_t reads = count > 1 ? strtoull(words[1], NULL, 10) : 4000000;
    counts sum = {0};
    for (unsigned k = 0; k < 4; k++) {
        round_of(k < 2 ? 128 : 32, k % 2 == 1, reads / 4 / READERS, &sum);
    }
    printf("readers: %llu reads, %llu hits, %llu short buffers, %llu insertions, %llu placed, "
           "%llu erasures, %llu evictions, 0 wrong\n",
           (unsigned long long)sum.reads, (unsigned long long)sum.hits,
           (unsigned long long)sum.shorts, (unsigned long long)sum.insertions,
           (unsigned long long)sum.placed, (unsigned long long)sum.erasures,
           (unsigned long long)sum.evictions);
    must(sum.hits >= sum.reads / 16, "too few hits:", 0, sum.hits);
    return 0;
}
