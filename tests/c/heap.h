/* What heap.c counts, and what it gives the library to draw. */
#ifndef HEAP_H
#define HEAP_H

#include <stddef.h>
#include <stdint.h>

#ifdef __cplusplus
extern "C" {
#endif

extern size_t heap_blocks; /* allocated and not freed */
extern size_t heap_bytes;  /* of these */
extern size_t heap_most;   /* of these at once, since it was last set */
extern size_t heap_left;   /* how many requests are met before one is refused */
extern int heap_once;      /* whether those behind that one are met */

extern int draws_left;          /* how many draws are met before one is refused: all if below 0 */
extern unsigned long draws_met; /* so far */
extern const uint64_t *draws_give; /* what they give; the system's numbers if null */

/* How many blocks of 4 MiB and more begin at a boundary of 2 MiB. */
size_t heap_large(void);

#ifdef __cplusplus
}
#endif

#endif
