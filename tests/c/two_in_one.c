/* Two threads use one client, which the checking build has to end. */
#include "ferretgold.h"

#include <pthread.h>
#include <stdio.h>

static ferretgold_client *client;

static void *work(void *argument) {
    const ferretgold_key key = {1, 1};
    uint64_t usage = 0;
    for (int round = 0; round < 10000000; round++) {
        (void)ferretgold_get(client, &key, NULL, 0, true, NULL);
        (void)ferretgold_usage(client, &usage);
    }
    return argument;
}

int main(void) {
    ferretgold_config config = FERRETGOLD_CONFIG;
    ferretgold_cache *cache = NULL;
    pthread_t other;
    config.clients = 1;
    if (ferretgold_open(&config, &cache) != FERRETGOLD_OK ||
        ferretgold_client_open(cache, &client) != FERRETGOLD_OK ||
        pthread_create(&other, NULL, work, NULL) != 0) {
        return 2;
    }
    (void)work(NULL);
    (void)pthread_join(other, NULL);
    puts("the threads never met");
    return 0;
}
