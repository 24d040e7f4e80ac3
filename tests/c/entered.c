/* A call on a client while another is in it, from the same thread for a definite order: the
 * library's request for memory in the one makes the other. The checking library has to end it.
 * Linked with -Wl,--wrap=malloc. */
#include "ferretgold.h"

#include <stdio.h>

static ferretgold_client *client = NULL;

void *__real_malloc(size_t size);
void *__wrap_malloc(size_t size);

void *__wrap_malloc(size_t size) {
    uint64_t usage = 0;
    if (client != NULL) {
        (void)ferretgold_usage(client, &usage);
    }
    return __real_malloc(size);
}

int main(void) {
    ferretgold_config config = FERRETGOLD_CONFIG;
    const ferretgold_key key = {1, 1};
    ferretgold_cache *cache = NULL;
    ferretgold_client *opened = NULL;
    ferretgold_handle handle;
    config.clients = 1;
    if (ferretgold_open(&config, &cache) != FERRETGOLD_OK ||
        ferretgold_client_open(cache, &opened) != FERRETGOLD_OK ||
        ferretgold_insert(opened, &key, "a", 1, 1, FERRETGOLD_LOW, NULL) != FERRETGOLD_OK) {
        return 2;
    }
    client = opened; /* the next one stands alone, and so is copied */
    (void)ferretgold_insert_pinned(opened, &key, "a", 1, 1, FERRETGOLD_LOW, NULL, &handle);
    printf("the calls met, and went on\n");
    return 0;
}
