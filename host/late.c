/*
 * late.c: a signal at the worst time. SIGTERM comes with each read that fills its room, when there may be
 * more to read; and, once a host has read something, on its way into each wait, when it has looked for
 * signals already. `ld --wrap=read --wrap=pselect` puts these in the place of the system's, so that a test
 * can see that a host minds it at once.
 */
#include <signal.h>
#include <sys/select.h>
#include <unistd.h>

typedef int wait_function(int count, fd_set *to_read, fd_set *to_write, fd_set *other, const struct timespec *limit,
                          const sigset_t *mask);

ssize_t __real_read(int from, void *bytes, size_t room);
ssize_t __wrap_read(int from, void *bytes, size_t room);
wait_function __real_pselect, __wrap_pselect;

static int has_read;

ssize_t __wrap_read(int from, void *bytes, size_t room) {
    ssize_t got = __real_read(from, bytes, room);
    has_read |= got > 0;
    if (got > 0 && (size_t)got == room)
        raise(SIGTERM);
    return got;
}

int __wrap_pselect(int count, fd_set *to_read, fd_set *to_write, fd_set *other, const struct timespec *limit,
                   const sigset_t *mask) {
    if (has_read)
        raise(SIGTERM);
    return __real_pselect(count, to_read, to_write, other, limit, mask);
}
