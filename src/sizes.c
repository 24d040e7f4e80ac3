/* How much memory a configuration takes, configurations for so much memory, and what to think over in
 * one. */
#include "ferretgold.h"
#include "heap.h"
#include "limits.h"

/* The fewest slots of a shard that has others beside it. */
enum { SEVERAL = 1024 };
/* How many handles of all clients leave a shard its entries: a part of the places of one. */
enum { USUAL_HANDLES = 16, HELD_PART = 4 };

uint64_t ferretgold_memory(const ferretgold_config *config) {
    if (ferretgold_config_check(config) != FERRETGOLD_OK) {
        return 0;
    }
    const uint64_t shards = config->shards, clients = config->clients;
    const uint64_t slot = UINT64_C(8) * (7 + (uint64_t)config->room);
    const uint64_t table = config->slots * slot + 32; /* with the ledgers behind the slots */
    const uint64_t client = 856 + 72 * shards + 104 * (uint64_t)config->handles;
    return shards * (176 + taken(table)) + clients * client + (clients + 63) / 64 * 64 + 496;
}

/* How many entries a shard has at most. */
static uint32_t places(const ferretgold_config *config) {
    return config->slots * OCCUPANCY_PERCENT / 100;
}

/* ---- For so much memory ---------------------------------------------------------------------- */

/* The fewest shards of so many slots in all. */
static uint32_t fewest_shards(uint32_t slots) {
    return slots > MOST_SLOTS ? slots / MOST_SLOTS : 1;
}

/* Whether so many slots may be in so many shards. */
static bool is_split(uint32_t slots, uint32_t shards) {
    return shards <= MOST_SHARDS && (shards == fewest_shards(slots) || slots / shards >= SEVERAL);
}

/* Has so many slots in so many shards, and a client's handles by them: what it takes then. */
static uint64_t split(ferretgold_config *it, uint32_t slots, uint32_t shards) {
    it->shards = shards;
    it->slots = slots / shards;
    const uint32_t each = places(it) / HELD_PART / it->clients;
    it->handles = each == 0 ? 1 : each < USUAL_HANDLES ? each : USUAL_HANDLES;
    return ferretgold_memory(it);
}

/* Whether so many slots fit into so many bytes. There are as many shards as clients then, rounded up, if
 * these fit; else fewer; else more, since small tables aren't rounded up to large pages. */
static bool fits(uint64_t bytes, uint32_t slots, ferretgold_config *it) {
    uint32_t found = 0;
    for (uint32_t shards = fewest_shards(slots); is_split(slots, shards); shards *= 2) {
        if (split(it, slots, shards) <= bytes && (found == 0 || shards < 2 * it->clients)) {
            found = shards;
        }
    }
    if (found != 0) {
        (void)split(it, slots, found);
    }
    return found != 0;
}

/* The fewest bytes that such a configuration takes with so many slots; 0 if it can't have as many. */
static uint64_t least_bytes(ferretgold_config it, uint32_t slots) {
    uint64_t least = 0;
    for (uint32_t shards = fewest_shards(slots); is_split(slots, shards); shards *= 2) {
        const uint64_t bytes = split(&it, slots, shards);
        least = least == 0 || bytes < least ? bytes : least;
    }
    return least;
}

ferretgold_status ferretgold_config_for(uint64_t bytes, size_t value, uint32_t threads,
                                        ferretgold_config *config, ferretgold_fit *fit) {
    ferretgold_config it = FERRETGOLD_CONFIG;
    if (config == NULL) {
        return FERRETGOLD_NULL;
    }
    if (value > MOST_VALUE) {
        return FERRETGOLD_BAD_ROOM;
    }
    if (threads == 0 || threads > MOST_CLIENTS) {
        return FERRETGOLD_BAD_CLIENTS;
    }
    it.room = value == 0 ? 1 : (uint32_t)((value + 7) / 8);
    it.clients = threads;
    uint32_t slots = MOST_SLOTS * MOST_SHARDS;
    while (slots >= FEWEST_SLOTS && !fits(bytes, slots, &it)) {
        slots /= 2;
    }
    if (slots < FEWEST_SLOTS) {
        return FERRETGOLD_BAD_SLOTS;
    }
    const uint64_t entries = slots * UINT64_C(7) / 10, taken = ferretgold_memory(&it);
    it.capacity = entries * it.room * 8;
    *config = it;
    if (fit != NULL) {
        *fit = (ferretgold_fit){.bytes = taken,
                                .values = entries * value,
                                .entries = entries,
                                .more = least_bytes(it, 2 * slots),
                                .half = taken >= bytes - bytes / 2};
    }
    return FERRETGOLD_OK;
}

/* ---- What to think over ---------------------------------------------------------------------- */

/* The charges of as many entries as there may be, in bytes of the longest values; or, where the capacity
 * has no byte for each slot, of 1 each. */
static uint64_t most_charges(const ferretgold_config *config) {
    const uint64_t entries = (uint64_t)config->shards * places(config);
    const bool in_bytes = config->capacity > (uint64_t)config->shards * config->slots;
    return in_bytes ? entries * config->room * 8 : entries;
}

uint32_t ferretgold_config_advice(const ferretgold_config *config) {
    uint32_t advice = 0;
    if (ferretgold_config_check(config) != FERRETGOLD_OK) {
        return 0;
    }
    const uint64_t most = most_charges(config);
    if ((uint64_t)config->clients * config->handles > places(config) / HELD_PART) {
        advice |= FERRETGOLD_MANY_HANDLES;
    }
    if (config->capacity > most) {
        advice |= FERRETGOLD_LARGE_CAPACITY;
    }
    if (config->capacity < most - most / 2) {
        advice |= FERRETGOLD_SMALL_CAPACITY;
    }
    if (config->shards > 1 && config->slots < SEVERAL) {
        advice |= FERRETGOLD_SMALL_SHARDS;
    }
    return advice;
}

const char *ferretgold_advice_text(uint32_t advice) {
    switch (advice) {
    case FERRETGOLD_MANY_HANDLES:
        return "clients may hold more than a quarter of a shard's entries: fewer handles or shards";
    case FERRETGOLD_LARGE_CAPACITY:
        return "slots are full before charges reach the capacity: less of that, or more slots";
    case FERRETGOLD_SMALL_CAPACITY:
        return "the capacity leaves more than half of the slots empty: more of that, or fewer slots";
    case FERRETGOLD_SMALL_SHARDS:
        return "shards of fewer than 1,024 slots fill unevenly: fewer shards";
    }
    return "unknown";
}
