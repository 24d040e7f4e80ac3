/* Statuses as sentences, and the library's version. */
#include "ferretgold_object.h"

/* Those of ferretgold_object.h. */
static const char *object_status_text(uint32_t status) {
    switch (status) {
    case FERRETGOLD_GONE_FULL: return "the client's list is full";
    case FERRETGOLD_TOO_HIGH: return "the object's address is 2^48 or above";
    case FERRETGOLD_BAD_GONE: return "gone must be 4 to 65,536";
    case FERRETGOLD_UNTAKEN: return "objects weren't taken off a list";
    }
    return "unknown";
}

const char *ferretgold_status_text(ferretgold_status status) {
    switch (status) {
    case FERRETGOLD_OK: return "ok";
    case FERRETGOLD_MISS: return "miss";
    case FERRETGOLD_NULL: return "a pointer is null";
    case FERRETGOLD_NO_HANDLE: return "the client holds no such handle";
    case FERRETGOLD_NO_CHARGE: return "the charge is 0";
    case FERRETGOLD_TOO_LONG: return "the value is longer than a slot has room for";
    case FERRETGOLD_TOO_SHORT: return "the buffer is shorter than the value";
    case FERRETGOLD_BAD_PRIORITY: return "the priority is unknown";
    case FERRETGOLD_OUT_OF_RANGE: return "there is no such shard or slot";
    case FERRETGOLD_HANDLES_FULL: return "the client holds as many handles as it may";
    case FERRETGOLD_SPENT: return "the client has used all its serials";
    case FERRETGOLD_TOO_LARGE: return "the charge is above a shard's capacity";
    case FERRETGOLD_CAPACITY_FULL: return "evictions freed too little of the charge";
    case FERRETGOLD_OCCUPANCY_FULL: return "evictions freed no slot";
    case FERRETGOLD_OUT_OF_MEMORY: return "an allocation failed";
    case FERRETGOLD_BAD_SLOTS: return "slots must be a power of two from 8 to 65,536";
    case FERRETGOLD_BAD_ROOM: return "room must be 1 to 512";
    case FERRETGOLD_BAD_CLIENTS: return "clients must be 1 to 1,024";
    case FERRETGOLD_BAD_HANDLES: return "handles must be 1 to 16,384";
    case FERRETGOLD_BAD_SHARDS: return "shards must be a power of two from 1 to 64";
    case FERRETGOLD_BAD_CAPACITY: return "capacity must be at most 2^40";
    case FERRETGOLD_BAD_SERIALS: return "serials must be 1 to 2^54";
    case FERRETGOLD_NO_CLIENT: return "all clients of the cache are out, or this one was given back";
    case FERRETGOLD_OTHER_CACHE: return "the client is one of another cache";
    case FERRETGOLD_HANDLES_OUT: return "the client holds handles";
    case FERRETGOLD_CLIENTS_OUT: return "clients of the cache are out";
    case FERRETGOLD_BAD_SIZE: return "the library doesn't know this size of configuration";
    case FERRETGOLD_NO_SEED: return "the system has no number for a seed yet";
    case FERRETGOLD_SHARED: return "somebody else has the cache";
    }
    return object_status_text((uint32_t)status);
}

const char *ferretgold_version(void) {
    return FERRETGOLD_VERSION;
}
