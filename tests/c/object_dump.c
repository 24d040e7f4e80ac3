/* Dumps of caches of objects that run, and warm starts from them: rows, what fails, and programs that
 * are killed at drawn moments, also within a dump.
 * Usage: object_dump rows | object_dump killed ROUNDS */
#define _GNU_SOURCE

#include "ferretgold_file.h"
#include "heap.h"
#include "outlives.h"

#include <dirent.h>
#include <limits.h>
#include <pthread.h>
#include <signal.h>
#include <stdatomic.h>
#include <stdio.h>
#include <stdlib.h>
#include <string.h>
#include <sys/mman.h>
#include <sys/resource.h>
#include <sys/stat.h>
#include <sys/syscall.h>
#include <sys/wait.h>
#include <unistd.h>

enum {
    FILES = 256, BLOCKS = 8, LENGTH = 200, READERS = 4, SAMPLE = 1000,
    REWRITES = 4,     /* of files between two dumps */
    LONGEST = 20000,  /* microseconds until a program is killed */
    NUMBERS = 1 << 20 /* that a program gives its files, from 1 on */
};

static unsigned long faults = 0;

static void expect(int line, const char *what, long long is, long long wanted) {
    if (is != wanted) {
        fprintf(stderr, "object_dump.c:%d: %s is %lld and not %lld\n", line, what, is, wanted);
        faults += 1;
    }
}
#define EXPECT(what, wanted) expect(__LINE__, #what, (long long)(what), (long long)(wanted))

/* Where the rows are played alone, linked with heap.c. */
#pragma weak heap_left
#pragma weak heap_blocks

/* How often the system was asked to put something on the disk, and how many more it does; what was put
 * there last. */
static unsigned flushes = 0, flushes_left = UINT_MAX;
static ino_t flushed = 0;

/* In place of the system's. */
int fsync(int file) {
    struct stat is;
    flushes += 1;
    flushed = fstat(file, &is) == 0 ? is.st_ino : 0;
    if (flushes_left == 0) {
        return -1;
    }
    flushes_left -= 1;
    return (int)syscall(SYS_fsync, file);
}

/* Removes a folder with the files and empty folders in it. */
static void remove_all(const char *folder) {
    DIR *open = opendir(folder);
    const struct dirent *it;
    char path[800];
    while (open != NULL && (it = readdir(open)) != NULL) {
        (void)snprintf(path, sizeof path, "%s/%s", folder, it->d_name);
        (void)remove(path);
    }
    (void)closedir(open);
    EXPECT(rmdir(folder), 0);
}

/* ---- Rows ------------------------------------------------------------------------------------ */

static ferretgold_object_cache *opened(uint32_t slots, uint32_t clients) {
    ferretgold_object_config config = FERRETGOLD_OBJECT_CONFIG;
    ferretgold_object_cache *cache = NULL;
    config.slots = slots;
    config.shards = 1;
    config.clients = clients;
    config.handles = 8;
    config.capacity = UINT64_C(1) << 40;
    EXPECT(ferretgold_object_open(&config, ferretgold_object_free_bytes, NULL, &cache), FERRETGOLD_OK);
    return cache;
}

static void put(ferretgold_object_cache *cache, uint64_t number, const char *text) {
    const ferretgold_key key = {number, 1};
    ferretgold_inserted inserted = FERRETGOLD_DROPPED;
    EXPECT(ferretgold_object_insert_bytes(cache, &key, text, strlen(text) + 1, 7, FERRETGOLD_LOW, &inserted),
           FERRETGOLD_OK);
    EXPECT(inserted, FERRETGOLD_PLACED);
}

/* Whether the entry of a key has this text; of none null. */
static bool has(ferretgold_object_cache *cache, uint64_t number, const char *text) {
    const ferretgold_key key = {number, 1};
    const ferretgold_object_handle *handle = NULL;
    if (ferretgold_object_lookup(cache, &key, &handle) != FERRETGOLD_OK) {
        return text == NULL;
    }
    const bool is_so = text != NULL && strcmp(ferretgold_object_bytes(handle, NULL), text) == 0
                       && handle->charge == 7;
    EXPECT(ferretgold_object_release(cache, handle, false, false, NULL), FERRETGOLD_OK);
    return is_so;
}

static unsigned open_files(void) {
    unsigned found = 0;
    DIR *folder = opendir("/proc/self/fd");
    while (folder != NULL && readdir(folder) != NULL) {
        found += 1;
    }
    (void)closedir(folder);
    return found;
}

static ferretgold_file_status dump(ferretgold_object_cache *cache, const char *path) {
    uint64_t saved = 0;
    return ferretgold_object_dump(cache, NULL, NULL, NULL, path, &saved);
}

/* A cache that begins with a dump: what it has is that, or nothing where that is refused. */
static void begins(const char *path, ferretgold_file_status wanted, const char *first) {
    ferretgold_object_cache *cache = opened(64, 2);
    ferretgold_loaded loaded = {9, 9, 9};
    EXPECT(ferretgold_object_warm(cache, path, NULL, NULL, &loaded), wanted);
    EXPECT(has(cache, 1, wanted == FERRETGOLD_FILE_OK ? first : NULL), true);
    EXPECT(has(cache, 2, wanted == FERRETGOLD_FILE_OK ? "two" : NULL), true);
    EXPECT(loaded.entries, wanted == FERRETGOLD_FILE_OK ? 2 : 9);
    EXPECT(loaded.left, wanted == FERRETGOLD_FILE_OK ? 2 : 9);
    EXPECT(ferretgold_object_close(cache), FERRETGOLD_OK);
}

/* A dump that fails leaves the one before it, and nothing beside it: where the disk has no room, where no
 * handle is to be had, where a folder stands in its place. */
static void fails(ferretgold_object_cache *cache, const char *path, const char *beside) {
    const ferretgold_object_handle *held[8];
    struct rlimit limit;
    char folder[600];
    EXPECT(getrlimit(RLIMIT_FSIZE, &limit), 0);
    const struct rlimit little = {100, limit.rlim_max};
    (void)signal(SIGXFSZ, SIG_IGN);
    EXPECT(setrlimit(RLIMIT_FSIZE, &little), 0);
    EXPECT(dump(cache, path), FERRETGOLD_FILE_WRITE);
    EXPECT(setrlimit(RLIMIT_FSIZE, &limit), 0);
    EXPECT(access(beside, F_OK), -1);
    for (int k = 0; k < 8; k++) {
        const ferretgold_key key = {1, 1};
        EXPECT(ferretgold_object_lookup(cache, &key, &held[k]), FERRETGOLD_OK);
    }
    EXPECT(dump(cache, path), FERRETGOLD_FILE_BUSY);
    EXPECT(access(beside, F_OK), -1);
    for (int k = 0; k < 8; k++) {
        EXPECT(ferretgold_object_release(cache, held[k], false, false, NULL), FERRETGOLD_OK);
    }
    flushes_left = 0;
    EXPECT(dump(cache, path), FERRETGOLD_FILE_WRITE);
    flushes_left = UINT_MAX;
    EXPECT(access(beside, F_OK), -1);
    (void)snprintf(folder, sizeof folder, "%s.folder", path);
    EXPECT(mkdir(folder, 0777), 0);
    EXPECT(dump(cache, folder), FERRETGOLD_FILE_WRITE);
    (void)snprintf(folder, sizeof folder, "%s.folder.new", path);
    EXPECT(access(folder, F_OK), -1);
    (void)snprintf(folder, sizeof folder, "%s.none/dump", path);
    EXPECT(dump(cache, folder), FERRETGOLD_FILE_WRITE);
    EXPECT(dump(cache, NULL), FERRETGOLD_FILE_NULL);
    EXPECT(dump(NULL, path), FERRETGOLD_FILE_NULL);
    EXPECT(ferretgold_object_warm(cache, NULL, NULL, NULL, NULL), FERRETGOLD_FILE_NULL);
    EXPECT(ferretgold_object_warm(NULL, path, NULL, NULL, NULL), FERRETGOLD_FILE_NULL);
}

/* Without memory there is no dump, and none is kept of it; the folder is flushed, also that of a plain name. */
static void flushes_folder(ferretgold_object_cache *cache, const char *path, const char *folder) {
    struct stat is;
    char was[600];
    EXPECT(stat(folder, &is), 0);
    if (&heap_left != NULL) {
        heap_left = 0;
        EXPECT(dump(cache, path), FERRETGOLD_FILE_MEMORY);
        heap_left = SIZE_MAX;
        const size_t blocks = heap_blocks;
        EXPECT(dump(cache, path), FERRETGOLD_FILE_OK);
        EXPECT(heap_blocks, blocks);
    }
    EXPECT(dump(cache, path), FERRETGOLD_FILE_OK);
    EXPECT(flushed, is.st_ino);
    EXPECT(getcwd(was, sizeof was) != NULL && chdir(folder) == 0, true);
    EXPECT(dump(cache, "plain"), FERRETGOLD_FILE_OK);
    EXPECT(flushed, is.st_ino);
    EXPECT(unlink("plain"), 0);
    EXPECT(chdir(was), 0);
}

/* How a dump has a key twice: the walk has seen its slot, and it is inserted anew in a later one. */
typedef struct again {
    ferretgold_object_cache *cache;
    uint64_t asked;
    const char *path;
} again;

static uint64_t size_of(void *context, const ferretgold_object_handle *handle) {
    again *it = context;
    char beside[600];
    (void)snprintf(beside, sizeof beside, "%s.new", it->path);
    EXPECT(access(beside, F_OK), 0);
    if (it->asked++ == 0) {
        EXPECT(ferretgold_object_erase(it->cache, &handle->key, NULL), FERRETGOLD_OK);
        put(it->cache, handle->key.w0, "new");
    }
    return 4;
}

static bool copy_of(void *context, const ferretgold_object_handle *handle, uint64_t offset, void *bytes,
                    size_t count) {
    (void)context;
    memcpy(bytes, (const char *)ferretgold_object_bytes(handle, NULL) + offset, count);
    return true;
}

/* Of one key the last that was dumped comes in. */
static void comes_last(const char *path) {
    unsigned twice = 0;
    for (uint64_t number = 1; number <= 32; number++) {
        ferretgold_object_cache *cache = opened(8, 1);
        again it = {cache, 0, path};
        ferretgold_loaded loaded;
        put(cache, number, "old");
        EXPECT(ferretgold_object_dump(cache, size_of, copy_of, &it, path, NULL), FERRETGOLD_FILE_OK);
        EXPECT(ferretgold_object_erase_where(cache, NULL, NULL, NULL), FERRETGOLD_OK);
        EXPECT(ferretgold_object_warm(cache, path, NULL, NULL, &loaded), FERRETGOLD_FILE_OK);
        EXPECT(loaded.entries, it.asked);
        EXPECT(has(cache, number, it.asked == 2 ? "new" : "old"), true);
        twice += it.asked == 2;
        EXPECT(ferretgold_object_close(cache), FERRETGOLD_OK);
    }
    EXPECT(twice > 0, true);
}

static race_end race(void *path, const ferretgold_object_config *config, ferretgold_priority rival) {
    ferretgold_object_cache *cache = NULL;
    EXPECT(ferretgold_object_open(config, ferretgold_object_free_bytes, NULL, &cache), FERRETGOLD_OK);
    EXPECT(ferretgold_object_warm(cache, path, NULL, NULL, NULL), FERRETGOLD_FILE_OK);
    const race_end is = raced(cache, rival);
    EXPECT(ferretgold_object_close(cache), FERRETGOLD_OK);
    return is;
}

/* What comes back is of low priority. */
static void comes_back_low(char *path) {
    const ferretgold_object_config config = racing_config(1);
    const ferretgold_key key = racer_key(RACER);
    ferretgold_object_cache *cache = NULL;
    EXPECT(ferretgold_object_open(&config, ferretgold_object_free_bytes, NULL, &cache), FERRETGOLD_OK);
    EXPECT(ferretgold_object_insert_bytes(cache, &key, "it", 2, 10, FERRETGOLD_BOTTOM, NULL), FERRETGOLD_OK);
    EXPECT(dump(cache, path), FERRETGOLD_FILE_OK);
    EXPECT(uses_by(race, path), 2);
    EXPECT(ferretgold_object_close(cache), FERRETGOLD_OK);
}

static void rows(char *path, const char *folder) {
    const unsigned files = open_files();
    char beside[600];
    struct stat is;
    ferretgold_object_cache *cache = opened(64, 1);
    (void)snprintf(beside, sizeof beside, "%s.new", path);
    begins(path, FERRETGOLD_FILE_READ, NULL);
    put(cache, 1, "one");
    put(cache, 2, "two");
    EXPECT(dump(cache, path), FERRETGOLD_FILE_OK);
    EXPECT(access(beside, F_OK), -1);
    fails(cache, path, beside);
    flushes_folder(cache, path, folder);
    begins(path, FERRETGOLD_FILE_OK, "one");
    EXPECT(ferretgold_object_erase_where(cache, NULL, NULL, NULL), FERRETGOLD_OK);
    put(cache, 2, "two");
    put(cache, 1, "another");
    flushes = 0;
    EXPECT(dump(cache, path), FERRETGOLD_FILE_OK);
    EXPECT(flushes, 2);
    begins(path, FERRETGOLD_FILE_OK, "another");
    EXPECT(stat(path, &is), 0);
    EXPECT(truncate(path, is.st_size - 41), 0);
    begins(path, FERRETGOLD_FILE_DAMAGED, NULL);
    comes_last(path);
    comes_back_low(path);
    EXPECT(ferretgold_object_close(cache), FERRETGOLD_OK);
    EXPECT(open_files(), files);
    EXPECT(unlink(path), 0);
}

/* ---- Programs that are killed ---------------------------------------------------------------- */

/* What outlives a program that is killed: the disk with its files, and what the next one is to find. Each
 * file has a number that no other one ever gets: its program's, and one that each program gives anew. */
typedef struct disk {
    _Atomic(uint64_t) file[FILES];
    _Atomic(uint64_t) begun, ended; /* dumps */
    _Atomic(uint64_t) rewrites;     /* that may come before the next dump */
    _Atomic(uint64_t) number;       /* of files, which this program gave */
    atomic_bool is_ready;           /* to be killed */
    atomic_ulong faults, reads, hits;
    uint64_t program;
    bool is_cold;  /* whether the program can't begin with a dump */
    bool is_older; /* whether it begins with one of which many blocks were written anew */
    const char *path;
} disk;

/* An entry that says which dump it is in, and how many of the reads before it hit. */
static const ferretgold_key MARK = {1, 1};
typedef struct mark {
    uint64_t dump, hits;
} mark;

static uint64_t drawn(uint64_t *state) {
    *state ^= *state << 13;
    *state ^= *state >> 7;
    *state ^= *state << 17;
    return *state;
}

/* The bytes of a block, by its file's number. */
static void fill(uint8_t *bytes, uint64_t file, uint64_t block) {
    uint64_t state = file * BLOCKS + block + 1;
    for (int at = 0; at < LENGTH; at++) {
        bytes[at] = (uint8_t)drawn(&state);
    }
}

/* Reads a block through the cache. Whether it was there. */
static bool has_read(ferretgold_object_cache *cache, disk *it, uint64_t *state) {
    const uint64_t a = drawn(state) % FILES, b = drawn(state) % FILES, block = drawn(state) % BLOCKS;
    const uint64_t file = atomic_load(&it->file[a < b ? a : b]);
    const ferretgold_key key = {file, block << 32 | 2};
    const ferretgold_object_handle *handle = NULL;
    uint8_t bytes[LENGTH];
    fill(bytes, file, block);
    if (ferretgold_object_lookup(cache, &key, &handle) != FERRETGOLD_OK) {
        (void)ferretgold_object_insert_bytes(cache, &key, bytes, LENGTH, 1, FERRETGOLD_LOW, NULL);
        return false;
    }
    size_t length = 0;
    const uint8_t *is = ferretgold_object_bytes(handle, &length);
    if (length != LENGTH || memcmp(is, bytes, LENGTH) != 0) {
        (void)atomic_fetch_add(&it->faults, 1);
    }
    (void)ferretgold_object_release(cache, handle, true, false, NULL);
    return true;
}

/* How many of the reads hit that a dump's number draws. */
static uint64_t hits_of(ferretgold_object_cache *cache, disk *it, uint64_t dump) {
    uint64_t state = dump * 2 + 1, hits = 0;
    for (int k = 0; k < SAMPLE; k++) {
        hits += has_read(cache, it, &state);
    }
    return hits;
}

static uint64_t new_file(disk *it) {
    return it->program * NUMBERS + atomic_fetch_add(&it->number, 1) % NUMBERS;
}

/* Writes a file anew, and erases the blocks of the one that was in its place. */
static bool is_of_file(void *file, const ferretgold_key *key) {
    return key->w0 == *(uint64_t *)file && (uint32_t)key->w1 == 2;
}

static void rewrite(ferretgold_object_cache *cache, disk *it, uint64_t *state) {
    uint64_t left = atomic_load(&it->rewrites);
    if (left > 0 && atomic_compare_exchange_strong(&it->rewrites, &left, left - 1)) {
        uint64_t was = atomic_exchange(&it->file[drawn(state) % FILES], new_file(it));
        (void)ferretgold_object_erase_where(cache, is_of_file, &was, NULL);
    }
}

typedef struct reader {
    ferretgold_object_cache *cache;
    disk *it;
    uint64_t state;
} reader;

static void *read_on(void *argument) {
    reader *of = argument;
    for (;;) {
        for (int k = 0; k < 500; k++) {
            (void)has_read(of->cache, of->it, &of->state);
        }
        rewrite(of->cache, of->it, &of->state);
    }
    return NULL;
}

/* Dumps again and again, each time with a mark. */
static void dump_on(ferretgold_object_cache *cache, disk *it) {
    for (;;) {
        const ferretgold_object_handle *handle = NULL;
        const uint64_t number = atomic_fetch_add(&it->begun, 1) + 1;
        const mark is = {number, hits_of(cache, it, number)};
        atomic_store(&it->rewrites, REWRITES);
        (void)ferretgold_object_erase(cache, &MARK, NULL);
        (void)ferretgold_object_insert_bytes(cache, &MARK, &is, sizeof is, 1, FERRETGOLD_HIGH, NULL);
        const bool is_held = ferretgold_object_lookup(cache, &MARK, &handle) == FERRETGOLD_OK;
        if (!is_held || dump(cache, it->path) != FERRETGOLD_FILE_OK) {
            (void)atomic_fetch_add(&it->faults, 1);
        }
        (void)ferretgold_object_release(cache, handle, false, false, NULL);
        atomic_store(&it->ended, number);
        atomic_store(&it->is_ready, true);
    }
}

/* A cache that begins with a dump, and the mark there. */
typedef struct beginning {
    ferretgold_object_cache *cache;
    mark is;
} beginning;

/* Notes the mark, and inserts all else. */
static bool make_but_mark(void *context, const ferretgold_object_saved *saved) {
    beginning *it = context;
    if (saved->key.w0 == MARK.w0 && saved->key.w1 == MARK.w1) {
        memcpy(&it->is, saved->bytes, sizeof it->is);
        return true;
    }
    return ferretgold_object_insert_bytes(it->cache, &saved->key, saved->bytes, saved->length, saved->charge,
                                          FERRETGOLD_LOW, NULL)
           == FERRETGOLD_OK;
}

/* Begins with the dump that ended last, or whose file took its place already, and finds there what was
 * found before it; where there is none that is sound, it begins with nothing. */
static void begin_warm(ferretgold_object_cache *cache, disk *it) {
    const uint64_t ended = atomic_load(&it->ended), begun = atomic_load(&it->begun);
    beginning with = {cache, {0, 0}};
    const ferretgold_file_status status =
        ferretgold_object_warm(cache, it->path, make_but_mark, &with, NULL);
    if (it->is_cold) {
        EXPECT(status, ended == 0 ? FERRETGOLD_FILE_READ : FERRETGOLD_FILE_DAMAGED);
        EXPECT(hits_of(cache, it, begun + 1) < SAMPLE / 2, true);
        return;
    }
    EXPECT(status, FERRETGOLD_FILE_OK);
    EXPECT(with.is.dump != 0 && (with.is.dump == ended || with.is.dump == begun), true);
    EXPECT(hits_of(cache, it, with.is.dump) * 10 >= with.is.hits * 9 || it->is_older, true);
}

/* One program: what it does until it is killed. */
static void run_program(disk *it) {
    ferretgold_object_cache *cache = opened(2048, READERS + 2);
    static reader readers[READERS];
    pthread_t thread;
    begin_warm(cache, it);
    (void)atomic_fetch_add(&it->faults, faults);
    for (int k = 0; k < READERS; k++) {
        readers[k] = (reader){cache, it, it->program * READERS + (uint64_t)k + 1};
        if (pthread_create(&thread, NULL, read_on, &readers[k]) != 0) {
            (void)atomic_fetch_add(&it->faults, 1);
        }
    }
    dump_on(cache, it);
}

/* Runs a program, and kills it at a drawn moment, once it has dumped. Whether that was within a dump. */
static bool killed(disk *it, uint64_t *state) {
    int status = 0;
    atomic_store(&it->is_ready, false);
    atomic_store(&it->number, 1);
    it->program += 1;
    const pid_t program = fork();
    if (program == 0) {
        run_program(it);
    }
    while (!atomic_load(&it->is_ready) && waitpid(program, &status, WNOHANG) == 0) {
        (void)usleep(200);
    }
    (void)usleep((useconds_t)(drawn(state) % LONGEST));
    EXPECT(kill(program, SIGKILL), 0);
    EXPECT(waitpid(program, &status, 0), program);
    EXPECT(WIFSIGNALED(status) && WTERMSIG(status) == SIGKILL, true);
    it->is_cold = false;
    return atomic_load(&it->begun) > atomic_load(&it->ended);
}

/* Has another file at the path: of the dump there what stands before its last blocks. */
static void cut(disk *it) {
    struct stat is;
    EXPECT(stat(it->path, &is), 0);
    EXPECT(truncate(it->path, is.st_size - 10 * LENGTH), 0);
    it->is_cold = true;
}

/* An older dump under the new name: what is in it is right still, as keys name what never changes. */
static void put_older(disk *it, const char *older, uint64_t ended) {
    EXPECT(rename(older, it->path), 0);
    atomic_store(&it->ended, ended);
    atomic_store(&it->begun, ended + 1);
    it->is_older = true;
}

static void keep_older(const disk *it, const char *older) {
    (void)unlink(older);
    EXPECT(link(it->path, older), 0);
}

static void killings(const char *path, unsigned rounds) {
    disk *it = mmap(NULL, sizeof *it, PROT_READ | PROT_WRITE, MAP_SHARED | MAP_ANONYMOUS, -1, 0);
    uint64_t state = 88172645463325252, older_is = 0;
    unsigned within = 0;
    char older[600];
    (void)snprintf(older, sizeof older, "%s.older", path);
    it->path = path;
    it->is_cold = true;
    for (int k = 0; k < FILES; k++) {
        atomic_store(&it->file[k], new_file(it));
    }
    for (unsigned round = 0; round < rounds; round++) {
        within += killed(it, &state);
        if (round == rounds / 2) {
            cut(it);
        }
        if (round == rounds - 3) {
            older_is = atomic_load(&it->ended);
            keep_older(it, older);
        }
    }
    put_older(it, older, older_is);
    within += killed(it, &state);
    printf("object_dump: %u of %u programs were killed within a dump, of %llu\n", within, rounds + 1,
           (unsigned long long)atomic_load(&it->begun));
    EXPECT(within > rounds / 4, true);
    EXPECT(atomic_load(&it->faults), 0);
}

int main(int count, char **words) {
    char folder[] = P_tmpdir "/ferretgold-XXXXXX", path[500];
    const bool kills = count == 3 && strcmp(words[1], "killed") == 0;
    if (!kills && (count != 2 || strcmp(words[1], "rows") != 0)) {
        fprintf(stderr, "usage: object_dump rows | object_dump killed ROUNDS\n");
        return 2;
    }
    EXPECT(mkdtemp(folder) != NULL, true);
    (void)snprintf(path, sizeof path, "%s/dump", folder);
    if (kills) {
        killings(path, (unsigned)strtoul(words[2], NULL, 10));
    } else {
        rows(path, folder);
    }
    remove_all(folder);
    printf("object_dump: %lu faults\n", faults);
    return faults != 0;
}
