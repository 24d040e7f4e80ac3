/* Calls on a cache of objects that don't begin at once, or have more to do before they end: deleters
 * of the C run here, and handles go back that other threads left. */
#include "object_call.h"

enum {
    SOME = 4,    /* how many handles of its queue a call gives back */
    CHANGES = 64 /* how many other clients a call tries whose client is full */
};

/* ---- Deleters -------------------------------------------------------------------------------- */

SLOWLY bool has_deleted_alone(ferretgold_object_cache *cache, object_cell *cell) {
    record *it = cell->alone;
    if (it == NULL) {
        return false;
    }
    const ferretgold_object_handle was = it->shows;
    const ferretgold_object_value value = {(uintptr_t)was.object, was.kind};
    cell->alone = (record *)(uintptr_t)it->handle.serial;
    spare_given_back(cache, it);
    delete_object(cache, &was.key, &value);
    return true;
}

void delete_gone(object_cell *it) {
    object_client *client = it->in_use;
    ferretgold_key key;
    ferretgold_object_value value;
    size_t left = 1;
    while (left > 0
           && ferretgold_raw_object_take_gone(&client->session, &key, &value, &left)
                  == FERRETGOLD_OK) {
        delete_object(client->cache, &key, &value);
        if (RARELY(client->untaken)) {
            run_deleters(it);
            return;
        }
    }
}

void run_deleters(object_cell *it) {
    object_client *client = it->in_use;
    ferretgold_key key;
    ferretgold_object_value value;
    do {
        size_t left = 1;
        while (left > 0
               && ferretgold_raw_object_take_gone(&client->session, &key, &value, &left)
                      == FERRETGOLD_OK) {
            client->untaken = false;
            delete_object(client->cache, &key, &value);
            left += client->untaken; /* by its own calls */
        }
    } while (it->alone != NULL && has_deleted_alone(client->cache, it));
    client->untaken = false;
}

/* As few as each list has places for, so that each may free its entry. */
static bool some_given_back(object_cell *it) {
    const bool more = records_given_back(it->in_use, SOME);
    if (it->in_use->untaken) {
        run_deleters(it);
    }
    return more;
}

static void give_back_some(object_cell *it) {
    (void)some_given_back(it);
}

void give_back_all(object_cell *it) {
    while (some_given_back(it)) {
    }
}

/* ---- Beginning ------------------------------------------------------------------------------- */

/* A deleter's call begins: in the client of the call that runs the deleter, if that has one. */
SLOWLY static object_cell *entered_again(object_cell *it) {
    if (it == NULL || it->in_use == NULL) {
        return NULL;
    }
    it->depth += 1;
    return it;
}

/* It gives a few handles back that other threads left, or all of another thread's client. */
SLOWLY object_cell *enter_slowly(ferretgold_object_cache *cache) {
    object_cell *it = cell_of(cache);
    if (it == NULL || is_in_call(it)) {
        return entered_again(it);
    }
    if ((it->client == NULL || !own_entered(it)) && !client_found(cache, it)) {
        return NULL;
    }
    begin(it, it->in_use);
    if (has_returned(it->in_use)) {
        (it->in_use == it->client ? give_back_some : give_back_all)(it);
    }
    return it;
}

object_cell *enter_own(object_client *client) {
    object_cell *it = cell_of(client->cache);
    if (it == NULL || is_in_call(it)) {
        return it == NULL || it->in_use != client ? NULL : entered_again(it);
    }
    if (it->client != client || !own_entered(it)) {
        return NULL;
    }
    begin(it, client);
    if (has_returned(client)) {
        give_back_some(it);
    }
    return it;
}

/* ---- Another client, and clients of others --------------------------------------------------- */

SLOWLY bool may_retry(object_cell *it, uint32_t status, uint32_t *changes) {
    object_client *client = it->in_use;
    if ((status != FERRETGOLD_HANDLES_FULL && status != FERRETGOLD_SPENT) || it->depth > 1) {
        return false;
    }
    if (client->untaken) {
        run_deleters(it);
    }
    if (status == FERRETGOLD_HANDLES_FULL && has_returned(client)) {
        give_back_all(it);
        return true;
    }
    *changes += 1;
    return *changes <= CHANGES && client_changed(client->cache, it);
}

void relieve(object_cell *it, object_client *client) {
    if (it == NULL || is_in_call(it) || !has_returned(client)) {
        return;
    }
    if (client == it->client ? !own_entered(it) : !client_claimed(client)) {
        return;
    }
    begin(it, client);
    give_back_all(it);
    (void)leave(it, FERRETGOLD_OK);
}

void relieve_all(ferretgold_object_cache *cache) {
    for (uint32_t number = 0; number < cache->config.clients; number++) {
        relieve(cell_of(cache), &cache->client[number]);
    }
}

ferretgold_status ferretgold_object_collect(ferretgold_object_cache *cache) {
    if (cache == NULL) {
        return FERRETGOLD_NULL;
    }
    relieve_all(cache);
    return FERRETGOLD_OK;
}
