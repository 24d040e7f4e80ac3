/* What the checking library knows of objects that a program says it owns once: those that stand in
 * a cache, each once. */
#include "object.h"

#include <sched.h>
#include <stdio.h>
#include <stdlib.h>
#include <string.h>

enum { KINDS = 65536, MIX = 47 };

struct owned {
    atomic_flag busy;
    bool is_owned[KINDS];
    size_t places; /* a power of two, twice as many as can stand */
    const void *at[];
};

/* The entries of the table, what stands alone, and what is on lists. */
static uint64_t most_standing(const ferretgold_object_config *config) {
    const uint64_t each = 2 * (uint64_t)config->handles + config->gone + 1;
    return (uint64_t)config->slots * config->shards + config->clients * each;
}

struct owned *owned_made(const ferretgold_object_config *config) {
    size_t places = 1;
    while (places < 2 * most_standing(config)) {
        places *= 2;
    }
    const size_t size = sizeof(struct owned) + places * sizeof(void *);
    struct owned *it = aligned_alloc(_Alignof(struct owned), size);
    if (it != NULL) {
        memset(it, 0, size);
        it->places = places;
    }
    return it;
}

void owned_freed(struct owned *it) {
    free(it);
}

static void begin(struct owned *it) {
    while (atomic_flag_test_and_set_explicit(&it->busy, memory_order_acquire)) {
        (void)sched_yield();
    }
}

static void end(struct owned *it) {
    atomic_flag_clear_explicit(&it->busy, memory_order_release);
}

/* Where an object is looked for first. */
static size_t home_of(const struct owned *it, const void *object) {
    const uint64_t mixed = (uintptr_t)object * UINT64_C(0x9e3779b97f4a7c15);
    return (size_t)(mixed ^ mixed >> MIX) & (it->places - 1);
}

/* The place of an object, or the empty one where it would be. */
static size_t place_of(const struct owned *it, const void *object) {
    size_t place = home_of(it, object);
    while (it->at[place] != NULL && it->at[place] != object) {
        place = (place + 1) & (it->places - 1);
    }
    return place;
}

void owned_use(atomic_bool *used, uint32_t number) {
    if (atomic_exchange(used, true)) {
        (void)fprintf(stderr, "ferretgold: two threads use client %u at once\n", (unsigned)number);
        abort();
    }
}

void owned_kind(struct owned *it, uint16_t kind) {
    begin(it);
    it->is_owned[kind] = true;
    end(it);
}

void owned_begins(struct owned *it, const void *object, uint16_t kind, const char *call) {
    begin(it);
    if (it->is_owned[kind] && object != NULL) {
        const size_t place = place_of(it, object);
        if (it->at[place] != NULL) {
            (void)fprintf(stderr,
                          "ferretgold: object %p of kind %u stands in the cache already: %s\n",
                          object, (unsigned)kind, call);
            abort();
        }
        it->at[place] = object;
    }
    end(it);
}

/* Empties a place, and puts those behind it where they are looked for. */
static void empty(struct owned *it, size_t place) {
    it->at[place] = NULL;
    for (place = (place + 1) & (it->places - 1); it->at[place] != NULL;
         place = (place + 1) & (it->places - 1)) {
        const void *moved = it->at[place];
        it->at[place] = NULL;
        it->at[place_of(it, moved)] = moved;
    }
}

void owned_ends(struct owned *it, const void *object, uint16_t kind) {
    begin(it);
    if (it->is_owned[kind] && object != NULL) {
        const size_t place = place_of(it, object);
        if (it->at[place] != NULL) {
            empty(it, place);
        }
    }
    end(it);
}
