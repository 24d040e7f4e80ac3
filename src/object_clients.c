/* Clients of a cache of objects, which belong to the cache: a thread names one, and whoever finds
 * one that is in no call may claim it for a call of its own. No thread waits for another.
 *
 * A client's thread says that it is in a call by a plain store, and then loads who claims the
 * client. Who claims it stores that, has all threads of the process pass a barrier, and then looks
 * whether the client's thread is in a call. So one of the two sees the other. */
#define _GNU_SOURCE /* for syscall */
#include "object.h"

#include <errno.h>
#include <linux/membarrier.h>
#include <signal.h>
#include <sys/syscall.h>
#include <unistd.h>

/* How many clients are claimed in vain before a call goes without. */
enum { TRIES = 4 };

_Thread_local object_thread object_self;

/* ---- Barriers and threads -------------------------------------------------------------------- */

static long membarrier(int command) {
    return syscall(SYS_membarrier, command, 0, 0);
}

void claims_begin(void) {
    (void)membarrier(MEMBARRIER_CMD_REGISTER_PRIVATE_EXPEDITED);
}

/* Has all threads of the process pass a barrier: false where the system can't. */
static bool all_fenced(void) {
    return membarrier(MEMBARRIER_CMD_PRIVATE_EXPEDITED) == 0
           || membarrier(MEMBARRIER_CMD_GLOBAL) == 0;
}

static uint64_t own_token(void) {
    if (object_self.token == NOBODY) {
        object_self.cursor = (uint32_t)syscall(SYS_gettid);
        object_self.token = (uint64_t)object_self.cursor << 1;
    }
    return object_self.token;
}

/* Whether the thread of a token has ended. */
static bool has_ended(uint64_t token) {
    return syscall(SYS_tgkill, getpid(), token >> 1, 0) != 0 && errno == ESRCH;
}

/* ---- Cells ----------------------------------------------------------------------------------- */

/* A cell that no call is in, each in turn; null if there is none. It may be that of a cache which
 * was closed: nothing of that is touched. A thread that loses the cell of a cache finds the client
 * that it names there by its token. */
static object_cell *cell_freed(void) {
    for (uint32_t k = 0; k < CELLS; k++) {
        object_cell *it = &object_self.cell[object_self.turn++ % CELLS];
        if (!is_in_call(it)) {
            return it;
        }
    }
    return NULL;
}

object_cell *cell_found(const ferretgold_object_cache *cache) {
    for (uint32_t k = 0; k < CELLS; k++) {
        if (object_self.cell[k].life == cache->life) {
            return &object_self.cell[k];
        }
    }
    object_cell *it = cell_at_home(cache);
    if (it->life != 0) {
        it = cell_freed();
    }
    if (it != NULL) {
        *it = (object_cell){cache->life, 0, NULL, NULL, NULL, NOBODY, 0};
    }
    return it;
}

/* ---- Claims ---------------------------------------------------------------------------------- */

static void unclaim(object_client *client) {
    const uint64_t seen = atomic_load_explicit(&client->claim, memory_order_relaxed);
    atomic_store(&client->claim, seen & ~(uint64_t)CLAIMED);
}

bool client_claimed(object_client *client) {
    uint64_t seen = atomic_load_explicit(&client->claim, memory_order_relaxed);
    if ((seen & CLAIMED) != 0 || atomic_load_explicit(&client->inside, memory_order_relaxed)) {
        return false;
    }
    if (!atomic_compare_exchange_strong(&client->claim, &seen, seen | CLAIMED)) {
        return false;
    }
    if (seen == NOBODY
        || ((all_fenced() || has_ended(seen)) && !atomic_load(&client->inside))) {
        client_used(client);
        return true;
    }
    unclaim(client);
    return false;
}

void client_unclaimed(object_client *client) {
    client_unused(client);
    unclaim(client);
}

/* A thread names a client that it has claimed, and is in a call of it. */
static void adopt(object_cell *it, object_client *client) {
    it->client = client;
    it->in_use = client;
    it->token = own_token();
    atomic_store(&client->inside, true);
    atomic_store(&client->claim, it->token);
}

/* Claims a client that this token names, from a number on; null if there is none. */
static object_client *named_by(ferretgold_object_cache *cache, uint64_t token, uint64_t first) {
    for (uint32_t n = 0; n < cache->config.clients; n++) {
        object_client *client = &cache->client[(first + n) % cache->config.clients];
        uint64_t seen = token;
        if (atomic_load_explicit(&client->claim, memory_order_relaxed) == seen
            && atomic_compare_exchange_strong(&client->claim, &seen, seen | CLAIMED)) {
            client_used(client);
            return client;
        }
    }
    return NULL;
}

/* Whether this token names a client, which somebody else has claimed. */
static bool has_named(ferretgold_object_cache *cache, uint64_t token) {
    for (uint32_t n = 0; n < cache->config.clients; n++) {
        if (atomic_load_explicit(&cache->client[n].claim, memory_order_relaxed)
            == (token | CLAIMED)) {
            return true;
        }
    }
    return false;
}

/* Claims a client that some thread names, and that is in no call; null if a few tries found
 * none. */
static object_client *borrowed(ferretgold_object_cache *cache) {
    uint32_t tries = 0;
    for (uint32_t n = 0; n < cache->config.clients && tries < TRIES; n++) {
        object_client *client = &cache->client[object_self.cursor++ % cache->config.clients];
        if (client_claimed(client)) {
            return client;
        }
        tries += !atomic_load_explicit(&client->inside, memory_order_relaxed);
    }
    return NULL;
}

/* Takes one of these for the thread's call: to keep, if its thread has ended. */
static bool has_borrowed(ferretgold_object_cache *cache, object_cell *it) {
    object_client *client = borrowed(cache);
    if (client == NULL) {
        return false;
    }
    const uint64_t named = atomic_load_explicit(&client->claim, memory_order_relaxed) >> 1 << 1;
    if (client == it->client || (it->client == NULL && (named == NOBODY || has_ended(named)))) {
        adopt(it, client);
    }
    it->in_use = client;
    return true;
}

/* A client that this thread names, and has no cell of, is nobody's: the thread that named it has
 * ended, and this one has its number; or the cell went to another cache. */
bool client_found(ferretgold_object_cache *cache, object_cell *it) {
    if (it->client == NULL) {
        const uint64_t token = own_token();
        object_client *client = named_by(cache, token, token >> 1);
        if (client == NULL && !has_named(cache, token)) {
            client = named_by(cache, NOBODY, token >> 1);
        }
        if (client != NULL) {
            adopt(it, client);
            return true;
        }
    }
    return has_borrowed(cache, it);
}

/* The thread's own client is nobody's from now on. Where somebody claims it just now it stays this
 * thread's, until that ends. */
static void give_up(object_client *client) {
    uint64_t token = object_self.token;
    client_left(client);
    (void)atomic_compare_exchange_strong(&client->claim, &token, NOBODY);
}

bool client_changed(ferretgold_object_cache *cache, object_cell *it) {
    object_client *full = it->in_use;
    const bool is_own = full == it->client;
    object_client *next = is_own ? named_by(cache, NOBODY, full->number + 1) : NULL;
    if (next != NULL) {
        adopt(it, next);
        give_up(full);
        return true;
    }
    if (!has_borrowed(cache, it)) {
        return false;
    }
    if (is_own) {
        client_left(full);
    } else {
        client_unclaimed(full);
    }
    return true;
}
