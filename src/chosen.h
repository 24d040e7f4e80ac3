/* Which entries of a file a cache is to begin with: as many as it has places for, chosen as they are read. */
#ifndef CHOSEN_H
#define CHOSEN_H

#include "ferretgold_image.h"

typedef struct chosen chosen;

/* An entry, with its number in the file. */
typedef struct file_value {
    ferretgold_key key;
    uint64_t number; /* above those of all entries before */
    const void *value;
    uint32_t charge, uses, length;
} file_value;

/* Has places for what a cache of this configuration takes, which isn't refused and whose seed is drawn. NULL
 * if memory is refused. */
chosen *chosen_open(const ferretgold_config *config);

/* Chooses an entry, or passes it over. False if memory is refused. */
bool chosen_add(chosen *it, const file_value *entry);

/* The entries that were chosen, of which the cache leaves out none, and adds how many they are. NULL if memory
 * is refused. Frees the places, whatever it returns. */
ferretgold_image *chosen_image(chosen *it, uint64_t *count);

void chosen_free(chosen *it);

#endif
