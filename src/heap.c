/* The three functions by which the proved library asks for memory and gives it back. What Rattle takes
 * them for: its libc's src/heap.rt. */
#define _DEFAULT_SOURCE /* for madvise */
#include "heap.h"

#include <stdbool.h>
#include <stddef.h>
#include <stdlib.h>
#ifdef __linux__
#include <sys/mman.h>
#endif

/* Whether there is memory, and where; a pointer to `nothing` if there is none. */
typedef struct tried {
    bool ok;
    void *at;
} tried;

tried rattle_alloc(size_t bytes, size_t alignment);
tried rattle_realloc(void *at, size_t kept, size_t bytes, size_t alignment);
void rattle_dealloc(void *at);

static char nothing;

static tried tell(void *at) {
    const tried given = {at != NULL, at != NULL ? at : &nothing};
    return given;
}

/* A look-up in a large table misses the processor's list of pages on small ones. Where the system
 * has no large ones to give, it leaves the block on these. A last page that isn't filled to half stays
 * small. */
static void *large(size_t bytes) {
#ifdef MADV_HUGEPAGE
    void *at = aligned_alloc(LARGE_PAGE, taken(bytes));
    if (at != NULL) {
        (void)madvise(at, (bytes + LARGE_PAGE / 2) / LARGE_PAGE * LARGE_PAGE, MADV_HUGEPAGE);
    }
    return at;
#else
    return malloc(bytes + LINE);
#endif
}

/* The alignment divides 16, as that of malloc's blocks. There are less than 2^63 bytes, as in all that
 * Rattle asks for. What has the alignment of bytes is the value of an image's entry, or a handle's copy,
 * in which nobody writes once it is there: it takes no line more, unless it has none. */
tried rattle_alloc(size_t bytes, size_t alignment) {
    if (alignment == 1 && bytes != 0) {
        return tell(malloc(bytes));
    }
    return tell(taken(bytes) < LARGE_BLOCK ? malloc(taken(bytes)) : large(bytes));
}

tried rattle_realloc(void *at, size_t kept, size_t bytes, size_t alignment) {
    (void)kept, (void)alignment;
    return tell(realloc(at, bytes + LINE));
}

void rattle_dealloc(void *at) {
    free(at);
}
