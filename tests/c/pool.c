/* Threads borrow clients of one cache: no client has ever two owners, and none is lost. Each
 * insertion and reading by a borrowed client is right, and counted; no count falls.
 * Usage: pool CLIENTS BORROWS     so many borrows of all eight threads together */
#include "ferretgold.h"

#include <pthread.h>
#include <stdatomic.h>
#include <stdio.h>
#include <stdlib.h>

enum { THREADS = 8, MOST_CLIENTS = 1024 };

static ferretgold_cache *cache;
static atomic_uint owners[MOST_CLIENTS];
static atomic_ulong faults, refused, readings; /* that began */
static unsigned long each;

static void must(int is) {
    if (!is) {
        atomic_fetch_add(&faults, 1);
    }
}

/* How many readings the cache has counted. */
static unsigned long counted(void) {
    ferretgold_counts counts;
    must(ferretgold_cache_counts(cache, &counts) == FERRETGOLD_OK);
    return (unsigned long)(counts.hits + counts.misses);
}

/* What an owner does with a client: an entry that is there has its key as value. */
static void use(ferretgold_client *client, uint64_t number) {
    const ferretgold_key key = {1, number % 100};
    uint64_t value = key.w1;
    size_t length = 0;
    atomic_fetch_add(&readings, 1);
    ferretgold_status status = ferretgold_get(client, &key, &value, sizeof value, true, &length);
    must(status == FERRETGOLD_OK ? length == sizeof value && value == key.w1
                                 : status == FERRETGOLD_MISS);
    if (status == FERRETGOLD_MISS) {
        must(ferretgold_insert(client, &key, &value, sizeof value, 1, FERRETGOLD_LOW, NULL) == 0);
    }
}

static void *work(void *argument) {
    const unsigned self = *(unsigned *)argument;
    unsigned long least = 0;
    for (unsigned long done = 0; done < each;) {
        ferretgold_client *client = NULL;
        const ferretgold_status status = ferretgold_client_open(cache, &client);
        if (status != FERRETGOLD_OK) {
            must(status == FERRETGOLD_NO_CLIENT);
            atomic_fetch_add(&refused, 1);
            continue;
        }
        const uint32_t number = ferretgold_client_number(client);
        must(atomic_exchange(&owners[number], self) == 0);
        if (done % 16 == 0) {
            use(client, done);
        }
        if (done % 256 == 0) {
            const unsigned long seen = counted();
            must(seen >= least && seen <= atomic_load(&readings));
            least = seen;
        }
        must(atomic_exchange(&owners[number], 0) == self);
        must(ferretgold_client_close(cache, client) == FERRETGOLD_OK);
        done++;
    }
    return NULL;
}

int main(int count, char **words) {
    ferretgold_config config = {.slots = 256, .room = 1, .clients = 3, .handles = 1, .shards = 1,
                                .capacity = 150, .serials = FERRETGOLD_MOST_SERIALS, .seed = 1};
    pthread_t threads[THREADS];
    unsigned self[THREADS];
    config.clients = count > 1 ? (uint32_t)strtoul(words[1], NULL, 10) : config.clients;
    each = (count > 2 ? strtoul(words[2], NULL, 10) : 10000000) / THREADS;
    if (ferretgold_open(&config, &cache) != FERRETGOLD_OK) {
        return 2;
    }
    for (unsigned k = 0; k < THREADS; k++) {
        self[k] = k + 1;
        must(pthread_create(&threads[k], NULL, work, &self[k]) == 0);
    }
    for (unsigned k = 0; k < THREADS; k++) {
        must(pthread_join(threads[k], NULL) == 0);
    }
    must(counted() == atomic_load(&readings));
    must(config.clients < THREADS || atomic_load(&refused) == 0);
    must(ferretgold_close(cache, NULL) == FERRETGOLD_OK);
    printf("pool: %lu faults\n", atomic_load(&faults));
    return atomic_load(&faults) != 0;
}
