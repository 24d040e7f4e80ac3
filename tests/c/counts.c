/* Eight threads work by clients that they borrow, and two read what the calls came to: no number falls,
 * each has what ended before and no more than began, and in the end all are what the workers counted
 * themselves and what the proved clients say.
 * Usage: counts CALLS     so many of all workers together */
#include "counting.h"
#include "ferretgold_raw.h"

#include <pthread.h>
#include <stdlib.h>

enum { CLIENTS = 10, HANDLES = 2, KEYS = 24, STRETCH = 700, ROOM = 16 };

static ferretgold_cache *cache;
static uint64_t each;

typedef struct worker {
    uint64_t state;
    progress *progress;
    ferretgold_client *client;
    ferretgold_handle held[HANDLES];
    uint32_t many;          /* that it holds */
    ferretgold_counts mine; /* but evicted and what follows, except by_turns */
} worker;

static ferretgold_stats told(ferretgold_client *client) {
    ferretgold_stats stats;
    ferretgold_raw_stats(&client->session, &stats);
    return stats;
}

static void looked(worker *it, ferretgold_status status) {
    *(status == FERRETGOLD_OK ? &it->mine.hits : &it->mine.misses) += 1;
}

/* Keeps a handle that a call gave. */
static void keep(worker *it, ferretgold_status status, ferretgold_handle handle) {
    if (status == FERRETGOLD_OK) {
        MUST(it->many < HANDLES);
        it->held[it->many++] = handle;
    }
}

static void release(worker *it, uint64_t how) {
    if (it->many > 0) {
        it->many--;
        MUST(ferretgold_release(it->client, it->held[it->many], how % 4 != 1, how % 32 == 1, NULL)
             == 0);
    }
}

static void look(worker *it, const ferretgold_key *key, uint64_t how) {
    char bytes[ROOM];
    atomic_fetch_add(&it->progress->looks[0], 1);
    if (how % 4 == 0) {
        looked(it, ferretgold_get(it->client, key, bytes, how % 16, how % 3 == 0, NULL));
    } else if (how % 4 == 2) {
        looked(it, ferretgold_get_part(it->client, key, how % 5, bytes, how % 16, how % 3 == 0,
                                       NULL));
    } else {
        ferretgold_handle handle = {0, 0, 0, 0};
        const ferretgold_status status = ferretgold_lookup(it->client, key, &handle);
        looked(it, status);
        keep(it, status, handle);
    }
    atomic_fetch_add(&it->progress->looks[1], 1);
}

/* The place of an insertion of so many turns: 0, 1, 2, then up to 4, 8, .. */
static uint64_t *by_turns(worker *it, uint64_t turns) {
    size_t place = 0;
    for (uint64_t most = 0; turns > most && place < 15; most = most == 0 ? 1 : 2 * most) {
        place++;
    }
    return &it->mine.by_turns[place];
}

static ferretgold_counts counted(const worker *it) {
    ferretgold_counts own;
    MUST(ferretgold_client_counts(cache, ferretgold_client_number(it->client), &own) == FERRETGOLD_OK);
    return own;
}

/* What only insertions do is told at once, and how many exchanges this one lost. */
static void is_told(const worker *it, const ferretgold_stats *before, uint64_t lost) {
    const ferretgold_stats after = told(it->client);
    const ferretgold_counts own = counted(it);
    MUST(own.evicted == after.evicted && own.evicted_hit == after.evicted_hit && own.freed == after.freed
         && own.turns == after.turns && own.there == after.boosts);
    MUST(own.lost - lost == after.lost - before->lost);
}

static void came(worker *it, ferretgold_status status, ferretgold_inserted inserted,
                 const ferretgold_stats *before) {
    const ferretgold_stats after = told(it->client);
    const bool met = after.boosts != before->boosts;
    MUST((inserted == FERRETGOLD_THERE || inserted == FERRETGOLD_STANDALONE) || !met);
    MUST(inserted != FERRETGOLD_THERE || met);
    *by_turns(it, after.turns - before->turns) += 1;
    if (status != FERRETGOLD_OK) {
        it->mine.refused++;
    } else if (inserted == FERRETGOLD_PLACED) {
        it->mine.placed++;
    } else if (met) {
        it->mine.there++;
    } else {
        *(inserted == FERRETGOLD_DROPPED ? &it->mine.dropped : &it->mine.standalone) += 1;
    }
}

static void insert(worker *it, const ferretgold_key *key, uint64_t how) {
    const ferretgold_stats before = told(it->client);
    const uint64_t lost = counted(it).lost;
    const uint32_t charge = how % 64 == 0 ? 1000 : 1 + how % 40;
    ferretgold_inserted inserted = FERRETGOLD_PLACED;
    ferretgold_handle handle = {0, 0, 0, 0};
    const bool is_pinned = how % 3 == 0;
    atomic_fetch_add(&it->progress->insertions[0], 1);
    const ferretgold_status status =
        is_pinned ? ferretgold_insert_pinned(it->client, key, "0123456789", how % 11, charge,
                                             FERRETGOLD_BOTTOM, &inserted, &handle)
                  : ferretgold_insert(it->client, key, "0123456789", how % 11, charge,
                                      FERRETGOLD_LOW, &inserted);
    is_told(it, &before, lost);
    came(it, status, inserted, &before);
    MUST(!is_pinned || inserted != FERRETGOLD_THERE);
    if (is_pinned) {
        keep(it, status, handle);
    }
    atomic_fetch_add(&it->progress->insertions[1], 1);
}

/* One call. What is refused for its arguments is not counted. */
static void call(worker *it) {
    const uint64_t how = drawn(&it->state);
    const ferretgold_key key = {how >> 20 & 1, how >> 32 & UINT64_C(0xffffffff)};
    const ferretgold_key at = {key.w0, key.w1 % KEYS};
    switch (how >> 60) {
    case 0: MUST(ferretgold_erase(it->client, &at, NULL) == FERRETGOLD_OK); break;
    case 1: MUST(ferretgold_insert(it->client, &at, "", 0, 0, FERRETGOLD_LOW, NULL) == 18); break;
    case 2: case 3: case 4: release(it, how); break;
    case 5: case 6: case 7: case 8: insert(it, &at, how & 0xffff); break;
    default: look(it, &at, how & 0xffff); break;
    }
}

static void *work(void *argument) {
    worker *it = argument;
    for (uint64_t done = 0; done < each; done++) {
        if (done % STRETCH == 0) {
            MUST(it->client == NULL
                 || ferretgold_client_close_releasing(cache, it->client) == FERRETGOLD_OK);
            MUST(ferretgold_client_open(cache, &it->client) == FERRETGOLD_OK);
            it->many = 0;
        }
        call(it);
    }
    MUST(ferretgold_client_close_releasing(cache, it->client) == FERRETGOLD_OK);
    return NULL;
}

static ferretgold_status read_all(ferretgold_counts *counts) {
    return ferretgold_cache_counts(cache, counts);
}

static void *read_counts(void *argument) {
    static const ferretgold_counts none;
    ferretgold_counts all = none, of_client[CLIENTS] = {none};
    uint64_t state = (uintptr_t)argument | 1;
    while (!atomic_load(&is_over)) {
        ferretgold_counts now;
        const uint32_t number = drawn(&state) % CLIENTS;
        look_once(read_all, &all);
        MUST(ferretgold_client_counts(cache, number, &now) == FERRETGOLD_OK);
        MUST(grew(&of_client[number], &now));
    }
    return NULL;
}

/* What the proved clients say, once all are back: in sum, and each as its own counts have it. */
static void add_told(ferretgold_counts *sum, ferretgold_outcomes *outcomes) {
    ferretgold_client *client[CLIENTS];
    for (int k = 0; k < CLIENTS; k++) {
        ferretgold_counts own;
        ferretgold_outcomes its;
        MUST(ferretgold_client_open(cache, &client[k]) == FERRETGOLD_OK);
        const ferretgold_stats stats = told(client[k]);
        ferretgold_raw_counts(&client[k]->session, &its);
        MUST(ferretgold_client_counts(cache, ferretgold_client_number(client[k]), &own) == 0);
        MUST(own.evicted == stats.evicted && own.evicted_hit == stats.evicted_hit
             && own.freed == stats.freed && own.turns == stats.turns && own.lost == stats.lost
             && own.there == stats.boosts && own.hits == its.hits && own.placed == its.placed
             && own.refused == its.refused);
        sum->evicted += stats.evicted, sum->evicted_hit += stats.evicted_hit;
        sum->freed += stats.freed, sum->turns += stats.turns, sum->lost += stats.lost;
        outcomes->dropped += its.dropped, outcomes->standalone += its.standalone;
    }
    for (int k = 0; k < CLIENTS; k++) {
        MUST(ferretgold_client_close(cache, client[k]) == FERRETGOLD_OK);
    }
}

/* The counts are those of the workers, each of which came. */
static void compare(const worker *workers, bool is_strict) {
    ferretgold_counts sum = {0}, is;
    ferretgold_outcomes outcomes = {0};
    add_told(&sum, &outcomes);
    for (int k = 0; k < WORKERS; k++) {
        const ferretgold_counts *its = &workers[k].mine;
        sum.hits += its->hits, sum.misses += its->misses, sum.placed += its->placed;
        sum.there += its->there, sum.dropped += its->dropped, sum.refused += its->refused;
        sum.standalone += its->standalone;
        for (int j = 0; j < 16; j++) {
            sum.by_turns[j] += its->by_turns[j];
        }
    }
    MUST(read_all(&is) == FERRETGOLD_OK && memcmp(&is, &sum, sizeof is) == 0);
    MUST(outcomes.dropped + outcomes.standalone == is.there + is.dropped + is.standalone);
    MUST(is.hits > 0 && is.misses > 0 && is.placed > 0 && is.there > 0 && is.refused > 0);
    MUST(is.evicted > 0 && is.evicted_hit > 0 && is.freed > is.evicted && is.turns > 0);
    MUST(is.by_turns[0] > 0 && is.by_turns[1] > 0 && is.by_turns[2] > 0 && is.by_turns[3] > 0);
    MUST(is_strict || (is.dropped > 0 && is.standalone > 0));
    printf("counts: %llu calls, %llu hits, %llu there, %llu dropped, %llu standalone, %llu refused, "
           "%llu lost, %lu faults\n", (unsigned long long)each * WORKERS, (unsigned long long)is.hits,
           (unsigned long long)is.there, (unsigned long long)is.dropped,
           (unsigned long long)is.standalone, (unsigned long long)is.refused,
           (unsigned long long)is.lost, atomic_load(&faults));
}

static void play(bool is_strict) {
    const ferretgold_config config = {.slots = 8, .room = ROOM / 8, .clients = CLIENTS,
                                      .handles = HANDLES, .shards = 2, .strict = is_strict,
                                      .marks = true, .capacity = 300,
                                      .serials = FERRETGOLD_MOST_SERIALS, .seed = 1};
    pthread_t threads[WORKERS + READERS];
    static worker workers[WORKERS];
    memset(workers, 0, sizeof workers);
    memset(of_worker, 0, sizeof of_worker);
    atomic_store(&is_over, false);
    MUST(ferretgold_open(&config, &cache) == FERRETGOLD_OK);
    for (uint64_t k = 0; k < WORKERS + READERS; k++) {
        const bool works = k < WORKERS;
        if (works) {
            workers[k] = (worker){.state = 77 * k + 5, .progress = &of_worker[k]};
        }
        MUST(pthread_create(&threads[k], NULL, works ? work : read_counts,
                            works ? (void *)&workers[k] : (void *)&threads[k])
             == 0);
    }
    for (int k = 0; k < WORKERS + READERS; k++) {
        atomic_store(&is_over, k >= WORKERS);
        MUST(pthread_join(threads[k], NULL) == 0);
    }
    compare(workers, is_strict);
    MUST(ferretgold_close(cache, NULL) == FERRETGOLD_OK);
}

int main(int count, char **words) {
    each = (count > 1 ? strtoull(words[1], NULL, 10) : 10000000) / WORKERS / 2;
    play(false);
    play(true);
    return atomic_load(&faults) != 0;
}
