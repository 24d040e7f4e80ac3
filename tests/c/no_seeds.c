/* A library that is loaded before all others, and in which getrandom has no number of eight bytes, as a
 * seed has, for whoever doesn't wait. */
#define _GNU_SOURCE /* for syscall */
#include <errno.h>
#include <sys/random.h>
#include <sys/syscall.h>
#include <unistd.h>

ssize_t getrandom(void *bytes, size_t count, unsigned flags) {
    if (count == 8 && (flags & GRND_NONBLOCK) != 0) {
        errno = EAGAIN;
        return -1;
    }
    return syscall(SYS_getrandom, bytes, count, flags);
}
