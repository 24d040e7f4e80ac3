/* The limits that the proved library has, as far as the C around it asks for them. A check compares
 * them with its constants. */
#ifndef FERRETGOLD_LIMITS_H
#define FERRETGOLD_LIMITS_H

enum { FEWEST_SLOTS = 8, MOST_SLOTS = 65536, MOST_SHARDS = 64, MOST_CLIENTS = 1024 };
/* Bytes of a value; and of a hundred slots those that have entries. */
enum { MOST_VALUE = 4096, OCCUPANCY_PERCENT = 84 };

#endif
