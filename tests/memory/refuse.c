// Refuses the memory request whose number the environment's REFUSE gives, counted from 1, and all
// later ones too where REST is set.
// Loaded before the C library, so that the built program runs as it is.
#define _GNU_SOURCE
#include <dlfcn.h>
#include <errno.h>
#include <stddef.h>
#include <stdlib.h>

static int refused(void)
{
    static long left = -1;
    if (left == -1) {
        const char *number = getenv("REFUSE");
        left = number ? atol(number) : 0;
    }
    if (left > 0 && --left == 0) {
        if (getenv("REST"))
            left = 1;
        errno = ENOMEM;
        return 1;
    }
    return 0;
}

void *malloc(size_t size)
{
    static void *(*real)(size_t);
    if (!real)
        real = dlsym(RTLD_NEXT, "malloc");
    return refused() ? NULL : real(size);
}

void *realloc(void *old, size_t size)
{
    static void *(*real)(void *, size_t);
    if (!real)
        real = dlsym(RTLD_NEXT, "realloc");
    return refused() ? NULL : real(old, size);
}
