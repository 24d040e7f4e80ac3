/* The calls of ferretgold_closed.h: a cache is closed, and what is left of it is read. They look for
 * null pointers, and the proved library does the rest. */
#include "ferretgold_closed.h"
#include "closed.h"

#include <stdlib.h>

struct ferretgold_closed {
    ferretgold_object left;
    ferretgold_config config;
};

/* A place for what is left of a cache; NULL if memory is refused. */
static ferretgold_closed *made(const ferretgold_cache *cache) {
    ferretgold_object left = {NULL};
    if (ferretgold_raw_closed_open(&left) != FERRETGOLD_OK) {
        return NULL;
    }
    ferretgold_closed *closed = malloc(sizeof *closed);
    if (closed == NULL) {
        ferretgold_raw_closed_free(left);
        return NULL;
    }
    closed->left = left;
    (void)ferretgold_config_of(cache, &closed->config);
    return closed;
}

ferretgold_status ferretgold_close_keeping(ferretgold_cache *cache, ferretgold_closed **closed) {
    if (cache == NULL || closed == NULL) {
        return FERRETGOLD_NULL;
    }
    if (!cache_is_idle(cache)) {
        return FERRETGOLD_CLIENTS_OUT;
    }
    ferretgold_closed *it = made(cache);
    if (it == NULL) {
        return FERRETGOLD_OUT_OF_MEMORY;
    }
    *closed = it;
    return cache_end(cache, &it->left);
}

ferretgold_status ferretgold_closed_config(const ferretgold_closed *closed,
                                           ferretgold_config *config) {
    if (closed == NULL || config == NULL) {
        return FERRETGOLD_NULL;
    }
    *config = closed->config;
    return FERRETGOLD_OK;
}

ferretgold_status ferretgold_closed_totals(ferretgold_closed *closed, ferretgold_totals *totals) {
    if (closed == NULL || totals == NULL) {
        return FERRETGOLD_NULL;
    }
    return (ferretgold_status)ferretgold_raw_closed_totals(&closed->left, totals);
}

ferretgold_status ferretgold_closed_entry(ferretgold_closed *closed, uint32_t shard, uint32_t slot,
                                          ferretgold_entry *entry) {
    if (closed == NULL || entry == NULL) {
        return FERRETGOLD_NULL;
    }
    return (ferretgold_status)ferretgold_raw_closed_entry(&closed->left, shard, slot, entry);
}

ferretgold_status ferretgold_closed_value(ferretgold_closed *closed, uint32_t shard, uint32_t slot,
                                          void *buffer, size_t capacity, size_t *length) {
    size_t ignored = 0;
    void *bytes = buffer != NULL ? buffer : &ignored;
    if (closed == NULL || (buffer == NULL && capacity != 0)) {
        return FERRETGOLD_NULL;
    }
    return (ferretgold_status)ferretgold_raw_closed_value(
        &closed->left, shard, slot, bytes, capacity, length != NULL ? length : &ignored);
}

ferretgold_status ferretgold_closed_word(ferretgold_closed *closed, uint32_t shard, uint32_t slot,
                                         uint64_t *word) {
    if (closed == NULL || word == NULL) {
        return FERRETGOLD_NULL;
    }
    return (ferretgold_status)ferretgold_raw_closed_word(&closed->left, shard, slot, word);
}

ferretgold_status ferretgold_closed_displacement(ferretgold_closed *closed, uint32_t shard,
                                                 uint32_t slot, uint64_t *displacement) {
    if (closed == NULL || displacement == NULL) {
        return FERRETGOLD_NULL;
    }
    return (ferretgold_status)ferretgold_raw_closed_displacement(&closed->left, shard, slot,
                                                                 displacement);
}

ferretgold_status ferretgold_closed_hand(ferretgold_closed *closed, uint32_t shard,
                                         uint64_t *hand) {
    if (closed == NULL || hand == NULL) {
        return FERRETGOLD_NULL;
    }
    return (ferretgold_status)ferretgold_raw_closed_hand(&closed->left, shard, hand);
}

void ferretgold_closed_free(ferretgold_closed *closed) {
    if (closed != NULL) {
        ferretgold_raw_closed_free(closed->left);
        free(closed);
    }
}
