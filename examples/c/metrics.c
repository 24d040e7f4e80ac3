/* Works on a small cache by two clients, and prints what each one's calls came to, and all in sum, in
 * Prometheus' text format. A program would print that, the sum or each client, whenever it is asked: any
 * thread may, while the others work. */
#include "ferretgold.h"
#include "prometheus.h"

#include <stdlib.h>

enum { CLIENTS = 2, KEYS = 40, READS = 400 };

static void must(ferretgold_status status) {
    if (status != FERRETGOLD_OK) {
        fprintf(stderr, "metrics: %s\n", ferretgold_status_text(status));
        exit(1);
    }
}

/* Reads keys, the lower ones more often, and inserts what isn't there: each eighth it inserts anyhow. */
static void work(ferretgold_client *client, uint64_t from) {
    for (uint64_t n = from; n < READS; n += CLIENTS) {
        const ferretgold_key key = {7, n * n % KEYS};
        uint64_t value = 0;
        const ferretgold_status status =
            ferretgold_get(client, &key, &value, sizeof value, true, NULL);
        if (status == FERRETGOLD_MISS || n % 8 == 0) {
            must(ferretgold_insert(client, &key, &key.w1, sizeof key.w1, 1, FERRETGOLD_LOW, NULL));
        }
    }
}

int main(void) {
    const ferretgold_config config = {.slots = 8, .room = 1, .clients = CLIENTS, .handles = 1,
                                      .shards = 1, .marks = true, .capacity = 5,
                                      .serials = FERRETGOLD_MOST_SERIALS, .seed = 1};
    labelled_counts all[] = {{"cache=\"all\"", {0}},
                             {"cache=\"small\",client=\"0\"", {0}},
                             {"cache=\"small\",client=\"1\"", {0}}};
    ferretgold_cache *cache = NULL;
    ferretgold_client *client[CLIENTS];
    must(ferretgold_open(&config, &cache));
    for (uint32_t k = 0; k < CLIENTS; k++) {
        must(ferretgold_client_open(cache, &client[k]));
        work(client[k], k);
    }
    must(ferretgold_cache_counts(cache, &all[0].counts));
    for (uint32_t k = 0; k < CLIENTS; k++) {
        must(ferretgold_client_counts(cache, k, &all[1 + k].counts));
    }
    print_metrics(stdout, all, 1 + CLIENTS);
    for (uint32_t k = 0; k < CLIENTS; k++) {
        must(ferretgold_client_close(cache, client[k]));
    }
    must(ferretgold_close(cache, NULL));
    return 0;
}
