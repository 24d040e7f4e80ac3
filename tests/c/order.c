/* The order of refusals: where two are due a call returns the one that its comment lists first. Each pair that
 * can be due at once, of opening, of insertions, and of what gets or gives back handles and clients. */
#include "ferretgold_image.h"
#include "expect.h"
#include "heap.h"

#include <stdint.h>

enum { MOST_HANDLES = 8, PLACES = 6, CHARGES = 60, LONGEST = 16 };

static const ferretgold_key THERE = {0, 1}, ABSENT = {9, 1};
static const ferretgold_config SMALL = {.slots = 8, .room = LONGEST / 8, .clients = 2,
                                        .handles = MOST_HANDLES, .shards = 1, .strict = true,
                                        .capacity = CHARGES, .serials = FERRETGOLD_MOST_SERIALS,
                                        .seed = 1};

static bool is_due(unsigned due, int why) {
    return (due >> why & 1) != 0;
}

/* ---- Configurations -------------------------------------------------------------------------- */

/* Has opening refused for one reason, by their order: with which status. */
static int spoil(ferretgold_config *it, int why) {
    switch (why) {
    case 0: it->size = 47; return 40;
    case 1: it->slots = 9; return 29;
    case 2: it->room = 513; return 30;
    case 3: it->clients = 1025; return 31;
    case 4: it->handles = 0; return 32;
    case 5: it->shards = 3; return 33;
    case 6: it->capacity = (UINT64_C(1) << 40) + 1; return 34;
    case 7: it->serials = 0; return 35;
    case 8: it->seed = 0, draws_left = 0; return 45;
    default: heap_left = 0; return 28;
    }
}

static void openings(void) {
    for (int first = 0; first < 10; first++) {
        for (int second = first; second < 10; second++) {
            ferretgold_config config = SMALL;
            ferretgold_cache *cache = NULL;
            ferretgold_image *image = NULL;
            EXPECT(ferretgold_image_open(&image), 0);
            (void)spoil(&config, second);
            const int wanted = spoil(&config, first);
            EXPECT(ferretgold_open(&config, &cache), wanted);
            EXPECT(ferretgold_reopen(&config, image, &cache, NULL), wanted);
            EXPECT(ferretgold_open(&config, NULL), 16);
            EXPECT(ferretgold_reopen(&config, NULL, &cache, NULL), 16);
            EXPECT(ferretgold_config_check(&config), first < 8 ? wanted : 0);
            heap_left = SIZE_MAX, draws_left = -1;
            EXPECT(cache == NULL, true);
        }
    }
}

/* A configuration for so much memory. */
static void sizes(void) {
    static const int status[] = {16, 30, 31, 29};
    for (int first = 0; first < 4; first++) {
        for (int second = first; second < 4; second++) {
            const unsigned due = 1U << first | 1U << second;
            ferretgold_config it;
            EXPECT(ferretgold_config_for(is_due(due, 3) ? 100 : 1 << 20, is_due(due, 1) ? 4097 : 8,
                                         !is_due(due, 2), is_due(due, 0) ? NULL : &it, NULL),
                   status[first]);
        }
    }
}

/* ---- A cache in which some are due ------------------------------------------------------------ */

enum { PRIORITY, CHARGE, LENGTH, HANDLES, SERIALS, LARGE, CAPACITY, OCCUPANCY, MEMORY, WHYS };

/* A client for which they are due, with a handle if it has used its serials or handles; another one holds what
 * fills the shard. */
typedef struct stage {
    ferretgold_cache *cache;
    ferretgold_client *it, *other;
    ferretgold_handle held;
} stage;

static stage prepared(unsigned due) {
    stage on = {NULL, NULL, NULL, {0, 0, 0, 0}};
    ferretgold_config config = SMALL;
    ferretgold_handle handle;
    const uint32_t entries = is_due(due, OCCUPANCY) ? PLACES : 1;
    const uint32_t charge = is_due(due, CAPACITY) ? CHARGES / entries : 1;
    const bool is_used = is_due(due, HANDLES) || is_due(due, SERIALS);
    config.serials = is_due(due, SERIALS) ? MOST_HANDLES : FERRETGOLD_MOST_SERIALS;
    EXPECT(ferretgold_open(&config, &on.cache), 0);
    EXPECT(ferretgold_client_open(on.cache, &on.it), 0);
    EXPECT(ferretgold_client_open(on.cache, &on.other), 0);
    for (uint64_t k = 0; k < entries; k++) {
        const ferretgold_key key = {k, 1};
        EXPECT(ferretgold_insert_pinned(on.other, &key, "", 0, charge, FERRETGOLD_LOW, NULL, &handle), 0);
    }
    for (int k = 0; is_used && k < MOST_HANDLES; k++) {
        EXPECT(ferretgold_lookup(on.it, &THERE, &handle), 0);
        on.held = k == 0 ? handle : on.held;
        if (k > 0 && !is_due(due, HANDLES)) {
            EXPECT(ferretgold_release(on.it, handle, false, false, NULL), 0);
        }
    }
    return on;
}

static void end(stage on) {
    EXPECT(ferretgold_client_close_releasing(on.cache, on.it), 0);
    EXPECT(ferretgold_client_close_releasing(on.cache, on.other), 0);
    EXPECT(ferretgold_close(on.cache, NULL), 0);
}

/* ---- Calls ----------------------------------------------------------------------------------- */

/* Of an insertion, the first that is due; one without a handle needs neither that nor memory. */
static int first_of(unsigned due, bool is_pinned) {
    static const int status[WHYS] = {21, 18, 19, 23, 24, 25, 26, 27, 28};
    for (int why = 0; why < WHYS; why++) {
        if (is_due(due, why) && (is_pinned || (why != MEMORY && why != HANDLES))) {
            return status[why];
        }
    }
    return 0;
}

/* Sees that an insertion counts, unless it was refused for its arguments. */
static void counts(const ferretgold_cache *cache, const ferretgold_counts *before, int status) {
    const bool is_counted = status != 21 && status != 18 && status != 19;
    ferretgold_counts now;
    EXPECT(ferretgold_cache_counts(cache, &now), 0);
    EXPECT(now.refused - before->refused, is_counted && status != 0);
    EXPECT(now.placed + now.standalone - before->placed - before->standalone, status == 0);
}

static void insertion(unsigned due, bool is_pinned) {
    const char bytes[LONGEST + 1] = {0};
    const ferretgold_priority priority = is_due(due, PRIORITY) ? (ferretgold_priority)3 : FERRETGOLD_LOW;
    const uint32_t charge = is_due(due, CHARGE) ? 0 : is_due(due, LARGE) ? CHARGES + 1 : 1;
    const size_t length = is_due(due, LENGTH) ? LONGEST + 1 : 1;
    const ferretgold_key *key = is_pinned && is_due(due, MEMORY) ? &THERE : &ABSENT; /* there it stands alone */
    ferretgold_handle handle;
    ferretgold_counts before;
    const stage on = prepared(due);
    EXPECT(ferretgold_cache_counts(on.cache, &before), 0);
    heap_left = is_due(due, MEMORY) ? 0 : SIZE_MAX;
    const ferretgold_status status =
        is_pinned ? ferretgold_insert_pinned(on.it, key, bytes, length, charge, priority, NULL, &handle)
                  : ferretgold_insert(on.it, key, bytes, length, charge, priority, NULL);
    heap_left = SIZE_MAX;
    EXPECT(status, first_of(due, is_pinned));
    counts(on.cache, &before, (int)status);
    end(on);
}

static void insertions(void) {
    for (int first = 0; first < WHYS; first++) {
        for (int second = first; second < WHYS; second++) {
            if (first != CHARGE || second != LARGE) {
                insertion(1U << first | 1U << second, false);
                insertion(1U << first | 1U << second, true);
            }
        }
    }
}

/* What gives a handle, on what is there and what isn't, by a handle that is held and one that isn't. */
static void handles(unsigned due) {
    const int wanted = is_due(due, HANDLES) ? 23 : 24;
    const stage on = prepared(due);
    const ferretgold_handle none = {0, 77, 0, 0};
    ferretgold_held_entry held;
    ferretgold_handle more;
    EXPECT(ferretgold_lookup(on.it, &THERE, &more), wanted);
    EXPECT(ferretgold_lookup(on.it, &ABSENT, &more), wanted);
    EXPECT(ferretgold_get_part(on.it, &THERE, 0, NULL, 0, true, NULL), wanted);
    EXPECT(ferretgold_get_part(on.it, &ABSENT, 0, NULL, 0, true, NULL), wanted);
    EXPECT(ferretgold_reref(on.it, on.held, &more), wanted);
    EXPECT(ferretgold_reref(on.it, none, &more), 17);
    EXPECT(ferretgold_pin_at(on.it, 0, 0, &held), wanted);
    end(on);
}

/* Giving back a client that holds handles, and then is idle: to another cache, and to its own. */
static void closings(void) {
    const stage on = prepared(1U << HANDLES), foreign = prepared(0);
    for (int is_idle = 0; is_idle < 2; is_idle++) {
        EXPECT(ferretgold_client_close(foreign.cache, on.it), 37);
        EXPECT(ferretgold_client_close_releasing(foreign.cache, on.it), 37);
        EXPECT(ferretgold_held(on.it), is_idle ? 0 : MOST_HANDLES);
        EXPECT(ferretgold_client_close(on.cache, on.it), is_idle ? 36 : 38);
        EXPECT(ferretgold_client_close_releasing(on.cache, on.it), is_idle ? 36 : 0);
    }
    EXPECT(ferretgold_client_close_releasing(on.cache, on.other), 0);
    EXPECT(ferretgold_close(on.cache, NULL), 0);
    end(foreign);
}

void orders(void) {
    where = "order";
    openings();
    sizes();
    insertions();
    handles(1U << HANDLES);
    handles(1U << SERIALS);
    handles(1U << HANDLES | 1U << SERIALS);
    closings();
}
