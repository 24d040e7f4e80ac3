/* Counts what the library allocates, sees that nothing writes behind a block, and counts what it draws by
 * getrandom. A program with it is linked with
 * -Wl,--wrap=malloc,--wrap=realloc,--wrap=aligned_alloc,--wrap=free,--wrap=getrandom. */
#include "heap.h"

#include <errno.h>
#include <stdint.h>
#include <stdlib.h>
#include <string.h>
#include <sys/random.h>

enum { PLACES = 1 << 18 };

/* How many bytes tell whether something wrote behind a block: none where a sanitizer tells it. */
#ifdef __SANITIZE_ADDRESS__
enum { BEHIND = 0 };
#else
enum { BEHIND = 16 };
#endif
static const char stands_behind[16] = "nothing is here";

size_t heap_blocks = 0;
size_t heap_bytes = 0;
size_t heap_most = 0;
size_t heap_left = SIZE_MAX;
int heap_once = 0;
int draws_left = -1;
unsigned long draws_met = 0;
const uint64_t *draws_give = NULL;

/* Each block's address and size, and how many bytes tell whether something wrote behind it: none where it
 * was moved, so that its neighbours lie as they would. */
static struct block {
    void *at;
    size_t size, behind;
} blocks[PLACES];

void *__real_malloc(size_t size);
void *__real_realloc(void *at, size_t size);
void *__real_aligned_alloc(size_t alignment, size_t size);
void __real_free(void *at);
ssize_t __real_getrandom(void *bytes, size_t count, unsigned flags);
void *__wrap_malloc(size_t size);
void *__wrap_realloc(void *at, size_t size);
void *__wrap_aligned_alloc(size_t alignment, size_t size);
void __wrap_free(void *at);
ssize_t __wrap_getrandom(void *bytes, size_t count, unsigned flags);

/* The place of a block, or an empty one for it. */
static struct block *place_of(void *at) {
    size_t place = (uintptr_t)at / 16 % PLACES;
    while (blocks[place].at != at && blocks[place].at != NULL) {
        place = (place + 1) % PLACES;
    }
    return &blocks[place];
}

static void *counted(void *at, size_t size, size_t behind) {
    if (at != NULL) {
        *place_of(at) = (struct block){at, size, behind};
        memcpy((char *)at + size, stands_behind, behind);
        heap_blocks += 1;
        heap_bytes += size;
        heap_most = heap_bytes > heap_most ? heap_bytes : heap_most;
    }
    return at;
}

/* Whether the next request is refused. */
static int refuses(void) {
    if (heap_left == 0) {
        heap_left = heap_once ? SIZE_MAX : 0;
        return 1;
    }
    heap_left -= heap_left != SIZE_MAX;
    return 0;
}

/* Forgets a block, and puts those behind it where they belong. */
static void uncount(void *at) {
    if (at == NULL) {
        return;
    }
    struct block *it = place_of(at);
    if (it->at == NULL || memcmp((char *)at + it->size, stands_behind, it->behind) != 0) {
        abort();
    }
    heap_blocks -= 1;
    heap_bytes -= it->size;
    it->at = NULL;
    for (size_t place = (size_t)(it - blocks + 1) % PLACES; blocks[place].at != NULL;
         place = (place + 1) % PLACES) {
        const struct block moved = blocks[place];
        blocks[place].at = NULL;
        *place_of(moved.at) = moved;
    }
}

size_t heap_large(void) {
    size_t count = 0;
    for (size_t place = 0; place < PLACES; place++) {
        count += blocks[place].at != NULL && blocks[place].size >= 1 << 22
                 && (uintptr_t)blocks[place].at % (1 << 21) == 0;
    }
    return count;
}

void *__wrap_malloc(size_t size) {
    return refuses() ? NULL : counted(__real_malloc(size + BEHIND), size, BEHIND);
}

void *__wrap_realloc(void *at, size_t size) {
    if (refuses()) {
        return NULL;
    }
    uncount(at);
    return counted(__real_realloc(at, size), size, 0);
}

/* Sanitizers refuse a size that isn't a multiple of the alignment. */
void *__wrap_aligned_alloc(size_t alignment, size_t size) {
    const size_t with_end = (size + BEHIND + alignment - 1) / alignment * alignment;
    return refuses() ? NULL : counted(__real_aligned_alloc(alignment, with_end), size, BEHIND);
}

void __wrap_free(void *at) {
    uncount(at);
    __real_free(at);
}

/* A call that might wait is a bug: one that isn't to wait is refused as by a system with no number. */
ssize_t __wrap_getrandom(void *bytes, size_t count, unsigned flags) {
    if (flags != GRND_NONBLOCK || count != sizeof *draws_give) {
        abort();
    }
    if (draws_left == 0) {
        errno = EAGAIN;
        return -1;
    }
    draws_left -= draws_left > 0;
    draws_met += 1;
    if (draws_give == NULL) {
        return __real_getrandom(bytes, count, flags);
    }
    memcpy(bytes, draws_give, count);
    return (ssize_t)count;
}
