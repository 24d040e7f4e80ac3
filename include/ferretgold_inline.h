/*
 * ferretgold_inline.h - the calls that programs make most. ferretgold.h includes it, and declares them
 * inline, so that they cost their caller no second call; the library has each as a function too.
 *
 * With FERRETGOLD_CHECK ferretgold.h doesn't include it. The checking library's functions are made
 * of it, round an `enter` and a `leave` of its own.
 */
#ifndef FERRETGOLD_INLINE_H
#define FERRETGOLD_INLINE_H

#include "ferretgold_raw.h"

#ifdef __cplusplus
#define FERRETGOLD_AS(type, value) static_cast<type>(value)
extern "C" {
#else
#define FERRETGOLD_AS(type, value) ((type)(value))
#endif

/* A client, whose fields are the library's. */
struct ferretgold_client {
    ferretgold_object session;
    ferretgold_cache *cache;
    ferretgold_object *out; /* its session while it is given out, else null: by atomics only */
#ifdef FERRETGOLD_CHECK
    const char *inside; /* the call that a thread is in: likewise */
#endif
    ferretgold_counts counts; /* written by its thread, and read by any: likewise */
} __attribute__((aligned(64)));

/* ---- Entering a client and leaving it -------------------------------------------------------- */

#ifndef FERRETGOLD_CHECK
/* Begins a call on a client's session; null if the client is idle. */
FERRETGOLD_INLINE ferretgold_object *ferretgold_enter(ferretgold_client *client, const char *call) {
    (void)call;
    return __atomic_load_n(&client->out, __ATOMIC_RELAXED);
}

/* Ends a call. */
FERRETGOLD_INLINE void ferretgold_quit(ferretgold_client *client) {
    (void)client;
}
#endif

FERRETGOLD_INLINE ferretgold_status ferretgold_leave(ferretgold_client *client, uint32_t status) {
    ferretgold_quit(client);
    return FERRETGOLD_AS(ferretgold_status, status);
}

/* ---- Counting -------------------------------------------------------------------------------- */

/* One more of what only the client's thread counts, so that nothing is lost between load and store. */
FERRETGOLD_INLINE void ferretgold_count(uint64_t *number) {
    __atomic_store_n(number, __atomic_load_n(number, __ATOMIC_RELAXED) + 1, __ATOMIC_RELAXED);
}

/* Counts a look-up or a reading. There is no third number, which would cost each miss another branch. */
FERRETGOLD_INLINE uint32_t ferretgold_looked(ferretgold_client *client, uint32_t status) {
    if (status == FERRETGOLD_OK) {
        ferretgold_count(&client->counts.hits);
        return FERRETGOLD_OK;
    }
    ferretgold_count(&client->counts.misses);
    return status;
}

/* ---- Handles --------------------------------------------------------------------------------- */

FERRETGOLD_INLINE ferretgold_status ferretgold_lookup(ferretgold_client *client,
                                                      const ferretgold_key *key,
                                                      ferretgold_handle *handle) {
    if (client == NULL || key == NULL || handle == NULL) {
        return FERRETGOLD_NULL;
    }
    ferretgold_object *session = ferretgold_enter(client, __func__);
    if (session == NULL) {
        return FERRETGOLD_OF_VERSION(ferretgold_idle)();
    }
    return ferretgold_leave(
        client,
        ferretgold_looked(client, ferretgold_raw_lookup(session, key, handle)));
}

FERRETGOLD_INLINE ferretgold_status ferretgold_reref(ferretgold_client *client,
                                                     ferretgold_handle handle,
                                                     ferretgold_handle *more) {
    if (client == NULL || more == NULL) {
        return FERRETGOLD_NULL;
    }
    ferretgold_object *session = ferretgold_enter(client, __func__);
    if (session == NULL) {
        return FERRETGOLD_OF_VERSION(ferretgold_idle)();
    }
    return ferretgold_leave(client, ferretgold_raw_reref(session, &handle, more));
}

FERRETGOLD_INLINE ferretgold_status ferretgold_release(ferretgold_client *client,
                                                       ferretgold_handle handle, bool useful,
                                                       bool erase_if_last, bool *freed) {
    bool answer = false;
    if (client == NULL) {
        return FERRETGOLD_NULL;
    }
    ferretgold_object *session = ferretgold_enter(client, __func__);
    if (session == NULL) {
        return FERRETGOLD_OF_VERSION(ferretgold_idle)();
    }
    const uint32_t status =
        ferretgold_raw_release(session, &handle, useful, erase_if_last, &answer);
    if (freed != NULL && status == FERRETGOLD_OK) {
        *freed = answer;
    }
    return ferretgold_leave(client, status);
}

FERRETGOLD_INLINE bool ferretgold_holds(ferretgold_client *client, ferretgold_handle handle) {
    ferretgold_object *session = client != NULL ? ferretgold_enter(client, __func__) : NULL;
    if (session == NULL) {
        return false;
    }
    const bool holds = ferretgold_raw_holds(session, &handle);
    ferretgold_quit(client);
    return holds;
}

/* ---- Reading --------------------------------------------------------------------------------- */

FERRETGOLD_INLINE ferretgold_status ferretgold_handle_key(ferretgold_client *client,
                                                          ferretgold_handle handle,
                                                          ferretgold_key *key) {
    if (client == NULL || key == NULL) {
        return FERRETGOLD_NULL;
    }
    ferretgold_object *session = ferretgold_enter(client, __func__);
    if (session == NULL) {
        return FERRETGOLD_OF_VERSION(ferretgold_idle)();
    }
    return ferretgold_leave(client, ferretgold_raw_key(session, &handle, key));
}

FERRETGOLD_INLINE ferretgold_status ferretgold_value_len(ferretgold_client *client,
                                                         ferretgold_handle handle, size_t *length) {
    if (client == NULL || length == NULL) {
        return FERRETGOLD_NULL;
    }
    ferretgold_object *session = ferretgold_enter(client, __func__);
    if (session == NULL) {
        return FERRETGOLD_OF_VERSION(ferretgold_idle)();
    }
    return ferretgold_leave(client, ferretgold_raw_value_len(session, &handle, length));
}

/* The proved library asks for pointers that aren't null, also to no bytes. */

FERRETGOLD_INLINE ferretgold_status ferretgold_read_value(ferretgold_client *client,
                                                          ferretgold_handle handle, void *buffer,
                                                          size_t capacity, size_t *length) {
    size_t ignored = 0;
    void *bytes = buffer != NULL ? buffer : &ignored;
    if (client == NULL || (buffer == NULL && capacity != 0)) {
        return FERRETGOLD_NULL;
    }
    ferretgold_object *session = ferretgold_enter(client, __func__);
    if (session == NULL) {
        return FERRETGOLD_OF_VERSION(ferretgold_idle)();
    }
    return ferretgold_leave(
        client, ferretgold_raw_read_value(session, &handle,
                                          FERRETGOLD_AS(uint8_t *, bytes), capacity,
                                          length != NULL ? length : &ignored));
}

FERRETGOLD_INLINE ferretgold_status ferretgold_read_part(ferretgold_client *client,
                                                         ferretgold_handle handle, size_t offset,
                                                         void *buffer, size_t capacity,
                                                         ferretgold_part *part) {
    ferretgold_part ignored;
    void *bytes = buffer != NULL ? buffer : &ignored;
    if (client == NULL || (buffer == NULL && capacity != 0)) {
        return FERRETGOLD_NULL;
    }
    ferretgold_object *session = ferretgold_enter(client, __func__);
    if (session == NULL) {
        return FERRETGOLD_OF_VERSION(ferretgold_idle)();
    }
    return ferretgold_leave(
        client, ferretgold_raw_read_part(session, &handle, offset,
                                         FERRETGOLD_AS(uint8_t *, bytes), capacity,
                                         part != NULL ? part : &ignored));
}

FERRETGOLD_INLINE ferretgold_status ferretgold_get(ferretgold_client *client,
                                                   const ferretgold_key *key, void *buffer,
                                                   size_t capacity, bool useful, size_t *length) {
    size_t ignored = 0;
    void *bytes = buffer != NULL ? buffer : &ignored;
    if (client == NULL || key == NULL || (buffer == NULL && capacity != 0)) {
        return FERRETGOLD_NULL;
    }
    ferretgold_object *session = ferretgold_enter(client, __func__);
    if (session == NULL) {
        return FERRETGOLD_OF_VERSION(ferretgold_idle)();
    }
    const uint32_t status =
        ferretgold_raw_get(session, key, FERRETGOLD_AS(uint8_t *, bytes), capacity, useful,
                           length != NULL ? length : &ignored);
    return ferretgold_leave(client, ferretgold_looked(client, status));
}

#ifdef __cplusplus
}
#endif
#undef FERRETGOLD_AS

#endif
