/* Two threads read blocks through one cache, each by a client of its own. */
#include "ferretgold.h"

#include <pthread.h>
#include <stdio.h>
#include <stdlib.h>
#include <string.h>

enum { THREADS = 2, BLOCK = 4096, BLOCKS = 100, ROUNDS = 1000 };

/* Ends the program where a call didn't do what it should. */
static void must(ferretgold_status status, const char *call) {
    if (status != FERRETGOLD_OK) {
        fprintf(stderr, "%s: %s\n", call, ferretgold_status_text(status));
        exit(1);
    }
}

/* A block as it comes from the disk, say. */
static void load(uint64_t number, unsigned char *block) {
    memset(block, (int)(number % 251), BLOCK);
}

/* A thread's client, and how many blocks the cache had for it. */
typedef struct worker {
    ferretgold_client *client;
    unsigned long hits;
} worker;

/* Reads a block: from the cache where it has it, and else from where blocks come from. */
static void read_block(worker *it, uint64_t number, unsigned char *block) {
    ferretgold_key key = {0, number};
    size_t length = 0;
    ferretgold_status status = ferretgold_get(it->client, &key, block, BLOCK, true, &length);
    if (status == FERRETGOLD_OK) {
        it->hits += 1;
        return;
    }
    if (status != FERRETGOLD_MISS) {
        must(status, "get");
    }
    load(number, block);
    /* A block that is refused or dropped is loaded again next time. */
    (void)ferretgold_insert(it->client, &key, block, BLOCK, BLOCK, FERRETGOLD_LOW, NULL);
}

static void *work(void *argument) {
    worker *it = argument;
    unsigned char block[BLOCK];
    for (uint64_t round = 0; round < ROUNDS; round++) {
        uint64_t number = round % BLOCKS;
        read_block(it, number, block);
        if (block[0] != number % 251 || block[BLOCK - 1] != number % 251) {
            fprintf(stderr, "block %llu is wrong\n", (unsigned long long)number);
            exit(1);
        }
    }
    return NULL;
}

/* Keeps an entry by a handle, reads it while it is erased, and gives it back. */
static void pin_one(ferretgold_client *client) {
    ferretgold_key key = {7, 7};
    ferretgold_handle handle;
    ferretgold_inserted inserted = FERRETGOLD_DROPPED;
    uint32_t hidden = 0;
    char text[16];
    size_t length = 0;
    must(ferretgold_insert_pinned(client, &key, "pinned", 6, 6, FERRETGOLD_HIGH, &inserted,
                                  &handle),
         "insert pinned");
    must(ferretgold_erase(client, &key, &hidden), "erase");
    must(ferretgold_read_value(client, handle, text, sizeof text, &length), "read");
    printf("%s, erased %u, reads as: %.*s\n",
           inserted == FERRETGOLD_PLACED ? "placed" : "standalone", hidden, (int)length, text);
    must(ferretgold_release(client, handle, false, false, NULL), "release");
}

int main(void) {
    ferretgold_config config = {.slots = 1024, .room = BLOCK / 8, .clients = THREADS,
                                .handles = 16, .shards = 2, .strict = true, .capacity = 4 << 20,
                                .serials = FERRETGOLD_MOST_SERIALS};
    ferretgold_cache *cache = NULL;
    ferretgold_totals totals = {0, 0, 0, 0};
    pthread_t threads[THREADS];
    worker workers[THREADS] = {{NULL, 0}};
    must(ferretgold_open(&config, &cache), "open");
    for (int k = 0; k < THREADS; k++) {
        must(ferretgold_client_open(cache, &workers[k].client), "client open");
    }
    pin_one(workers[0].client);
    for (int k = 0; k < THREADS; k++) {
        if (pthread_create(&threads[k], NULL, work, &workers[k]) != 0) {
            fprintf(stderr, "a thread can't be started\n");
            exit(1);
        }
    }
    unsigned long hits = 0;
    for (int k = 0; k < THREADS; k++) {
        pthread_join(threads[k], NULL);
        hits += workers[k].hits;
        must(ferretgold_client_close(cache, workers[k].client), "client close");
    }
    must(ferretgold_close(cache, &totals), "close");
    printf("%d reads, at least half of them hits: %s\n", THREADS * ROUNDS,
           hits >= THREADS * ROUNDS / 2 ? "yes" : "no");
    printf("%s blocks are left, and the books agree with the slots: %s\n",
           totals.occupied >= BLOCKS ? "all" : "not all",
           totals.usage == totals.slot_charges ? "yes" : "no");
    return totals.usage == totals.slot_charges ? 0 : 1;
}
