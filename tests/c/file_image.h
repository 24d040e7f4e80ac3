/* What the tests of files share: files in memory, numbers in them, and the count of faults. Who includes it
 * says before how many bytes such a file may have: MOST_FILE. */
#ifndef FILE_IMAGE_H
#define FILE_IMAGE_H

#include "expect.h"

#include <stdlib.h>
#include <string.h>

enum { BEGIN = 32, HEAD = 40, MOST_FAULTS = 20 };

int faults = 0;
const char *where = "";

void expect(const char *file, int line, const char *what, long long is, long long wanted) {
    if (is != wanted) {
        printf("%s:%d: %s%s is %lld, not %lld\n", file, line, where, what, is, wanted);
        faults++;
    }
    if (faults == MOST_FAULTS) {
        exit(1);
    }
}

typedef struct image {
    uint8_t bytes[MOST_FILE];
    size_t length;
    size_t at;
    size_t calls_left; /* how many calls are met before one fails */
    bool is_over;      /* one failed, or came to the end: no other is heard then */
} image;

/* Has a file begin at its front; and as one with no byte. */
static inline void begin_image(image *it) {
    it->at = 0;
    it->is_over = false;
}

static inline void empty_image(image *it) {
    it->length = 0;
    begin_image(it);
}

static inline bool write_image(void *context, const void *bytes, size_t count) {
    image *to = context;
    EXPECT(count > 0 && !to->is_over, true);
    to->is_over = to->calls_left-- == 0 || count > MOST_FILE - to->length;
    if (to->is_over) {
        return false;
    }
    memcpy(to->bytes + to->length, bytes, count);
    to->length += count;
    return true;
}

static inline size_t read_image(void *context, void *bytes, size_t count, bool *could) {
    image *from = context;
    const size_t rest = from->length - from->at;
    const size_t read = count < rest ? count : rest;
    EXPECT(from->is_over, false);
    from->is_over = from->calls_left == 0 || read < count;
    if (from->calls_left-- == 0) {
        *could = false;
        return 0;
    }
    memcpy(bytes, from->bytes + from->at, read);
    from->at += read;
    return read;
}

/* ---- Numbers, the lowest byte first ---------------------------------------------------------- */

static inline uint64_t number_at(const uint8_t *bytes, size_t count) {
    uint64_t number = 0;
    for (size_t at = 0; at < count; at++) {
        number += (uint64_t)bytes[at] << 8 * at;
    }
    return number;
}

static inline void set_number(uint8_t *bytes, size_t count, uint64_t number) {
    for (size_t at = 0; at < count; at++) {
        bytes[at] = (uint8_t)(number >> 8 * at);
    }
}

#endif
