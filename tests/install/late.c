/* A part of a program that is loaded while that runs, with the library inside, and the program: with
 * -DHOST. */
#ifdef HOST
#include <dlfcn.h>
#include <stdio.h>

int main(int count, char **words) {
    for (int k = 1; k < count; k++) {
        void *it = dlopen(words[k], RTLD_NOW | RTLD_LOCAL);
        int (*works)(void) = it != NULL ? (int (*)(void))dlsym(it, "works") : NULL;
        if (works == NULL || works() != 0) {
            printf("%s: %s\n", words[k], it == NULL ? dlerror() : "it doesn't work");
            return 1;
        }
    }
    return count < 2;
}
#else
#include "ferretgold_object.h"

static int deleted = 0;

static void ends(void *context, const ferretgold_key *key, void *object, uint16_t kind) {
    (void)context, (void)key, (void)kind;
    *(int *)object += 1;
}

/* Which of its calls fails, from 1; 0 if none does. */
int works(void);
int works(void) {
    ferretgold_object_config config = FERRETGOLD_OBJECT_CONFIG;
    const ferretgold_key key = {1, 2};
    const ferretgold_object_handle *handle = NULL;
    ferretgold_object_cache *cache = NULL;
    config.clients = 2;
    if (ferretgold_object_open(&config, ends, NULL, &cache) != FERRETGOLD_OK) {
        return 1;
    }
    if (ferretgold_object_insert(cache, &key, &deleted, 0, 1, FERRETGOLD_LOW, NULL) != FERRETGOLD_OK) {
        return 2;
    }
    if (ferretgold_object_lookup(cache, &key, &handle) != FERRETGOLD_OK || handle->object != &deleted) {
        return 3;
    }
    if (ferretgold_object_release(cache, handle, true, false, NULL) != FERRETGOLD_OK) {
        return 4;
    }
    return ferretgold_object_close(cache) != FERRETGOLD_OK ? 5 : deleted == 1 ? 0 : 6;
}
#endif
