/* The order of refusals of a cache of objects: where two are due a call returns the one that its comment lists
 * first. Each pair that can be due at once, also in a deleter whose client's list is full, and in one that runs
 * when the cache is closed, so that no client is to be had. */
#include "object_test.h"

enum { HANDLES = 8, PLACES = 6, SERIALS = 60, CHARGES = 60 };

static bool is_due(unsigned due, int why) {
    return (due >> why & 1) != 0;
}

static ferretgold_key key_of(uint64_t number) {
    return (ferretgold_key){number, 5};
}

/* ---- Configurations -------------------------------------------------------------------------- */

/* Has opening refused for one reason, by their order: with which status. */
static int spoil(ferretgold_object_config *it, int why) {
    switch (why) {
    case 0: it->size = 49; return FERRETGOLD_BAD_SIZE;
    case 1: it->slots = 9; return FERRETGOLD_BAD_SLOTS;
    case 2: it->clients = 1025; return FERRETGOLD_BAD_CLIENTS;
    case 3: it->handles = 0; return FERRETGOLD_BAD_HANDLES;
    case 4: it->shards = 3; return FERRETGOLD_BAD_SHARDS;
    case 5: it->capacity = UINT64_MAX; return FERRETGOLD_BAD_CAPACITY;
    case 6: it->serials = 0; return FERRETGOLD_BAD_SERIALS;
    case 7: it->gone = 65537; return FERRETGOLD_BAD_GONE;
    case 8: it->seed = 0, draws_left = 0; return FERRETGOLD_NO_SEED;
    default: heap_left = 0; return FERRETGOLD_OUT_OF_MEMORY;
    }
}

static void openings(void) {
    for (int first = 0; first < 10; first++) {
        for (int second = first; second < 10; second++) {
            ferretgold_object_config config = small_cache();
            ferretgold_object_cache *cache = NULL;
            (void)spoil(&config, second);
            const int wanted = spoil(&config, first);
            EXPECT(ferretgold_object_open(&config, ferretgold_object_free_bytes, NULL, &cache), wanted);
            EXPECT(ferretgold_object_open(&config, NULL, NULL, &cache), FERRETGOLD_NULL);
            EXPECT(ferretgold_object_open(&config, ferretgold_object_free_bytes, NULL, NULL), FERRETGOLD_NULL);
            EXPECT(ferretgold_object_config_check(&config), first < 8 ? wanted : FERRETGOLD_OK);
            heap_left = SIZE_MAX, draws_left = -1;
            EXPECT(cache == NULL, true);
        }
    }
}

/* ---- Insertions ------------------------------------------------------------------------------ */

/* In the order of ferretgold_object_insert_pinned; the last is due where no client is to be had. */
enum { PRIORITY, CHARGE, FULL, SPENT, GONE, HIGH, LARGE, CAPACITY, OCCUPANCY, NOWHERE, WHYS };
typedef enum way { PLAIN, COLD, PINNED, WAYS } way;

/* Of an insertion, the first that is due. Without a handle neither that nor the list is looked at, and where no
 * client is to be had, no status says so. */
static int first_of(unsigned due, way way) {
    static const int status[WHYS] = {
        FERRETGOLD_BAD_PRIORITY, FERRETGOLD_NO_CHARGE,     FERRETGOLD_HANDLES_FULL, FERRETGOLD_SPENT,
        FERRETGOLD_GONE_FULL,    FERRETGOLD_TOO_HIGH,      FERRETGOLD_TOO_LARGE,    FERRETGOLD_CAPACITY_FULL,
        FERRETGOLD_OCCUPANCY_FULL, FERRETGOLD_NO_CLIENT};
    for (int why = 0; why < WHYS; why++) {
        const bool is_looked_at = why == FULL || why == GONE ? way != PLAIN : why != NOWHERE || way == PINNED;
        if (is_due(due, why) && is_looked_at) {
            return status[why];
        }
    }
    return FERRETGOLD_OK;
}

/* A cache whose deleter makes an insertion once, where it is to. */
typedef struct stage {
    ferretgold_object_cache *cache;
    const ferretgold_object_handle *held[HANDLES];
    unsigned many; /* of these */
    unsigned due;
    way way;
    bool is_to_insert;
    int came, closed;
} stage;

static void release(const stage *it, const ferretgold_object_handle *handle) {
    EXPECT(ferretgold_object_release(it->cache, handle, false, false, NULL), FERRETGOLD_OK);
}

/* Sees that what came of an insertion counts, unless it is refused for its arguments. */
static void counts(const stage *it, ferretgold_counts *before, ferretgold_status status) {
    const bool is_counted = status != FERRETGOLD_BAD_PRIORITY && status != FERRETGOLD_NO_CHARGE
                            && (int)status != FERRETGOLD_TOO_HIGH;
    ferretgold_counts now;
    EXPECT(ferretgold_object_cache_counts(it->cache, &now), FERRETGOLD_OK);
    EXPECT(now.refused - before->refused, is_counted && status != FERRETGOLD_OK);
    EXPECT(now.placed + now.dropped + now.standalone - before->placed - before->dropped - before->standalone,
           status == FERRETGOLD_OK);
}

static int insertion(const stage *it) {
    const ferretgold_key key = key_of(9);
    ferretgold_counts before;
    const ferretgold_priority priority =
        is_due(it->due, PRIORITY) ? (ferretgold_priority)3 : FERRETGOLD_LOW;
    const bool is_large = is_due(it->due, GONE) && is_due(it->due, CAPACITY);
    const uint32_t charge = is_due(it->due, CHARGE)  ? 0
                            : is_due(it->due, LARGE) ? CHARGES + 1
                                                     : is_large ? CHARGES : 1;
    void *object = is_due(it->due, HIGH) ? (void *)(UINT64_C(1) << 48) : NULL;
    const ferretgold_object_handle *handle = NULL;
    EXPECT(ferretgold_object_cache_counts(it->cache, &before), FERRETGOLD_OK);
    const ferretgold_status status =
        it->way == PLAIN ? ferretgold_object_insert(it->cache, &key, object, 0, charge, priority, NULL)
                         : ferretgold_object_insert_pinned(it->cache, &key, object, 0, charge, priority,
                                                           NULL, it->way == PINNED ? &handle : NULL);
    counts(it, &before, status);
    if (handle != NULL) {
        release(it, handle);
    }
    return (int)status;
}

/* Has the client hold all its handles, and use up its serials, where that is due. */
static void use_up(stage *it) {
    const ferretgold_key first = key_of(0);
    const ferretgold_object_handle *handle = NULL;
    for (; is_due(it->due, FULL) && it->many < HANDLES; it->many++) {
        EXPECT(ferretgold_object_lookup(it->cache, &first, &it->held[it->many]), FERRETGOLD_OK);
    }
    while (is_due(it->due, SPENT) && ferretgold_object_lookup(it->cache, &first, &handle) == FERRETGOLD_OK) {
        release(it, handle);
    }
}

/* In a deleter: fills the list of its client, by erasures and by what stands alone. */
static void fill_list(stage *it) {
    const ferretgold_object_handle *handle = NULL;
    const ferretgold_key first = key_of(0);
    unsigned alone = 0;
    for (uint64_t k = 2; k < PLACES; k++) {
        const ferretgold_key key = key_of(k);
        EXPECT(ferretgold_object_erase(it->cache, &key, NULL), FERRETGOLD_OK);
    }
    while (ferretgold_object_insert_pinned(it->cache, &first, NULL, 0, 1, FERRETGOLD_LOW, NULL, &handle)
           == FERRETGOLD_OK) {
        release(it, handle);
        alone++;
    }
    EXPECT(alone, HANDLES);
}

static void delete_one(void *context, const ferretgold_key *key, void *object, uint16_t kind) {
    stage *it = context;
    (void)key, (void)object, (void)kind;
    if (it->is_to_insert) {
        it->is_to_insert = false;
        if (is_due(it->due, GONE)) {
            fill_list(it);
            use_up(it);
        }
        it->came = insertion(it);
        it->closed = (int)ferretgold_object_close(it->cache);
    }
}

/* Opens a cache and has these due there, where no deleter has to. */
static void prepare(stage *it) {
    ferretgold_object_config config = small_cache();
    const bool in_deleter = is_due(it->due, GONE);
    const bool are_held = (is_due(it->due, OCCUPANCY) || is_due(it->due, CAPACITY)) && !in_deleter;
    const unsigned entries = is_due(it->due, OCCUPANCY) || in_deleter ? PLACES : 1;
    const uint32_t charge = is_due(it->due, CAPACITY) ? CHARGES / entries : 1;
    config.handles = HANDLES, config.strict = true, config.capacity = CHARGES;
    config.serials = !is_due(it->due, SPENT) ? FERRETGOLD_MOST_SERIALS
                     : is_due(it->due, FULL) ? 1 + HANDLES : SERIALS;
    EXPECT(ferretgold_object_open(&config, delete_one, it, &it->cache), FERRETGOLD_OK);
    for (uint64_t k = 0; k < entries; k++) {
        const ferretgold_key key = key_of(k);
        EXPECT(are_held ? ferretgold_object_insert_pinned(it->cache, &key, NULL, 0, charge, FERRETGOLD_LOW,
                                                          NULL, &it->held[it->many++])
                        : ferretgold_object_insert(it->cache, &key, NULL, 0, charge, FERRETGOLD_LOW, NULL),
               FERRETGOLD_OK);
    }
    if (!in_deleter) {
        use_up(it);
    }
}

/* Gives back what is held, and closes the cache. */
static void end(stage *it) {
    for (; it->many > 0; it->many--) {
        release(it, it->held[it->many - 1]);
    }
    EXPECT(ferretgold_object_close(it->cache), FERRETGOLD_OK);
}

static void insert_so(unsigned due, way way) {
    stage it = {.due = due, .way = way, .came = -1};
    const ferretgold_key second = key_of(1);
    prepare(&it);
    it.is_to_insert = is_due(due, GONE) || is_due(due, NOWHERE);
    if (is_due(due, GONE)) {
        EXPECT(ferretgold_object_erase(it.cache, &second, NULL), FERRETGOLD_OK);
        EXPECT(it.closed, FERRETGOLD_CLIENTS_OUT);
    } else if (!is_due(due, NOWHERE)) {
        it.came = insertion(&it);
    }
    end(&it);
    EXPECT(it.came, first_of(due, way));
}

/* Whether two can't be due at once. */
static bool are_apart(int first, int second) {
    return (first == CHARGE && second == LARGE) || (first == GONE && second == OCCUPANCY)
           || (second == NOWHERE && (first == FULL || first == SPENT || first == GONE || first >= LARGE)
               && first != NOWHERE);
}

static void insertions(void) {
    for (int first = 0; first < WHYS; first++) {
        for (int second = first; second < WHYS; second++) {
            const bool nowhere_too = !are_apart(first, NOWHERE) && !are_apart(second, NOWHERE);
            for (way way = PLAIN; !are_apart(first, second) && way < WAYS; way++) {
                insert_so(1U << first | 1U << second, way);
                if (nowhere_too) {
                    insert_so(1U << first | 1U << second | 1U << NOWHERE, way);
                }
            }
        }
    }
}

/* ---- Other calls ----------------------------------------------------------------------------- */

/* What gives a handle, on what is there and what isn't. */
static void handles(unsigned due) {
    stage it = {.due = due};
    const int wanted = is_due(due, FULL) ? FERRETGOLD_HANDLES_FULL : FERRETGOLD_SPENT;
    const ferretgold_key there = key_of(0), absent = key_of(9);
    const ferretgold_object_handle *handle = NULL;
    prepare(&it);
    EXPECT(ferretgold_object_lookup(it.cache, &there, &handle), wanted);
    EXPECT(ferretgold_object_lookup(it.cache, &absent, &handle), wanted);
    EXPECT(ferretgold_object_pin_at(it.cache, 0, 0, &handle), wanted);
    end(&it);
}

/* Bytes are copied before anything else is judged, but pointers. */
static void copies(void) {
    stage it = {.due = 0};
    const ferretgold_key key = key_of(9);
    prepare(&it);
    heap_left = 0;
    EXPECT(ferretgold_object_insert_bytes(it.cache, &key, "a", 1, 0, (ferretgold_priority)3, NULL),
           FERRETGOLD_OUT_OF_MEMORY);
    EXPECT(ferretgold_object_insert_bytes(it.cache, NULL, "a", 1, 0, (ferretgold_priority)3, NULL),
           FERRETGOLD_NULL);
    heap_left = SIZE_MAX;
    end(&it);
}

void object_orders(void) {
    openings();
    insertions();
    handles(1U << FULL);
    handles(1U << SPENT);
    handles(1U << FULL | 1U << SPENT);
    copies();
}
