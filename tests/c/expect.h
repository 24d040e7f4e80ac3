/* What the files of the program that plays traces share. */
#ifndef EXPECT_H
#define EXPECT_H

#include "ferretgold.h"

#include <stdio.h>

extern int faults;
extern const char *where;

/* Notes a fault, if a number isn't as it should be. */
void expect(const char *file, int line, const char *what, long long is, long long wanted);
#define EXPECT(what, wanted) \
    expect(__FILE__, __LINE__, #what, (long long)(what), (long long)(wanted))

/* What is left of a cache that was closed. */
void closed_caches(void);

/* Caches that begin with entries. */
void images(void);

/* What no trace shows. */
void edges(void);

/* Of two refusals the first. */
void orders(void);

/* What each call counts as. */
void counted(void);

/* Seeds, and what is drawn. */
void seeds(void);

/* Walks over a cache. */
void walks(void);

/* Configurations for so much memory, and what to think over in one. */
void budgets(void);

#endif
