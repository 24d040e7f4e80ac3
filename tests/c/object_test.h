/* What the files of the test of ferretgold_object.h share. */
#ifndef OBJECT_TEST_H
#define OBJECT_TEST_H

#include "ferretgold_object.h"
#include "heap.h"

#include <stdatomic.h>
#include <stdio.h>

extern atomic_ulong object_faults;

/* Notes a fault, if a number isn't as it should be. */
void expect(const char *file, int line, const char *what, long long is, long long wanted);
#define EXPECT(what, wanted) \
    expect(__FILE__, __LINE__, #what, (long long)(what), (long long)(wanted))

/* A small cache: 8 slots, 100 of capacity, one client with 4 handles. */
ferretgold_object_config small_cache(void);

/* Configurations, and memory. */
void object_opening(void);

/* Objects that are bytes. */
void object_bytes(void);

/* Seeds, and what is drawn. */
void object_seeds(void);

/* Of two refusals the first. */
void object_orders(void);

/* What is a use of an entry. */
void object_uses(void);

/* Walks, alone and while others insert and erase. */
void object_walks(void);

/* What several do: so many operations of all. */
void object_threads(unsigned long operations);

#endif
