/* What both kinds of files share: their begin, the caller's functions that read, and how dumps are written. */
#ifndef FILE_H
#define FILE_H

#include "ferretgold_file.h"

#include <stdio.h>

/* Where a file is read from. */
typedef struct file_source {
    ferretgold_read *read;
    void *context;
} file_source;

/* Writes how a file of this version and so many entries begins. Whether it could. */
bool file_begun(uint32_t version, uint64_t entries, ferretgold_write *write, void *context);

/* Reads so many bytes, or says why not: fewer are damage. */
ferretgold_file_status file_bytes(const file_source *from, void *bytes, size_t count);

/* Reads how a file of this version begins: how many entries it says that it has. */
ferretgold_file_status file_begin(const file_source *from, uint32_t version, uint64_t *entries);

/* Whether the file ends here. */
ferretgold_file_status file_end(const file_source *from);

/* ---- dump.c ---------------------------------------------------------------------------------- */

/* Opens a file; null if that can't be done. */
FILE *file_opened(const char *path, int flags, const char *mode);

/* Writes to such a file. */
ferretgold_write file_write;

/* Writes to such a file what a dump has. */
typedef ferretgold_file_status write_dump(void *dump, FILE *to);

/* Has a dump take the place of the file at `path`, whole or not at all. */
ferretgold_file_status file_dumped(const char *path, write_dump *write, void *dump);

#endif
