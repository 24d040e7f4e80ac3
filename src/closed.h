/* What closing a cache to read it needs of the file that has caches. */
#ifndef CLOSED_H
#define CLOSED_H

#include "ferretgold_raw.h"

/* Whether no client of a cache is out. */
bool cache_is_idle(ferretgold_cache *cache);

/* Ends a cache whose clients are all idle. What is left of it goes to `left`, which has a place. */
ferretgold_status cache_end(ferretgold_cache *cache, ferretgold_object *left);

#endif
