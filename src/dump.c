/* Files of dumps: each takes the place of the one before, whole or not at all. It is tested, not proved. */
#define _POSIX_C_SOURCE 200809L

#include "file.h"

#include <fcntl.h>
#include <stdlib.h>
#include <string.h>
#include <unistd.h>

enum { ROOM = 65536 /* for bytes on their way to a file or from it */ };

FILE *file_opened(const char *path, int flags, const char *mode) {
    const int at = open(path, flags | O_CLOEXEC, 0666);
    FILE *file = at < 0 ? NULL : fdopen(at, mode);
    if (file != NULL) {
        (void)setvbuf(file, NULL, _IOFBF, ROOM);
    } else if (at >= 0) {
        (void)close(at);
    }
    return file;
}

bool file_write(void *file, const void *bytes, size_t count) {
    return fwrite(bytes, 1, count, file) == count;
}

/* Has the system put on the disk which file has this path, whose text is lost by it. */
static bool folder_flushed(char *path) {
    char *end = strrchr(path, '/');
    if (end != NULL) {
        end[end == path] = '\0';
    }
    const int folder = open(end == NULL ? "." : path, O_RDONLY | O_DIRECTORY | O_CLOEXEC);
    if (folder < 0) {
        return false;
    }
    const bool is_flushed = fsync(folder) == 0;
    (void)close(folder);
    return is_flushed;
}

/* Where a file is written that is to take the place of the one at `path`; null without memory. */
static char *beside(const char *path) {
    static const char ending[] = ".new";
    const size_t length = strlen(path);
    char *it = malloc(length + sizeof ending);
    if (it != NULL) {
        memcpy(it, path, length);
        memcpy(it + length, ending, sizeof ending);
    }
    return it;
}

/* Puts what was written on the disk. */
static bool has_ended(FILE *file) {
    const bool is_flushed = fflush(file) == 0 && fsync(fileno(file)) == 0;
    return (fclose(file) == 0) & is_flushed;
}

/* Has the file at `draft` take the place of the one at `path`, or goes. */
static bool has_taken_place(char *draft, const char *path) {
    if (rename(draft, path) != 0) {
        (void)unlink(draft);
        return false;
    }
    draft[strlen(path)] = '\0';
    return folder_flushed(draft);
}

ferretgold_file_status file_dumped(const char *path, write_dump *write, void *dump) {
    char *draft = beside(path);
    if (draft == NULL) {
        return FERRETGOLD_FILE_MEMORY;
    }
    ferretgold_file_status status = FERRETGOLD_FILE_WRITE;
    FILE *file = file_opened(draft, O_WRONLY | O_CREAT | O_TRUNC, "w");
    if (file != NULL) {
        status = write(dump, file);
        if (!has_ended(file) && status == FERRETGOLD_FILE_OK) {
            status = FERRETGOLD_FILE_WRITE;
        }
        if (status != FERRETGOLD_FILE_OK) {
            (void)unlink(draft);
        } else if (!has_taken_place(draft, path)) {
            status = FERRETGOLD_FILE_WRITE;
        }
    }
    free(draft);
    return status;
}
