/*
 * flaky.c: read and write as a host may find them. Every other call is cut short by a signal, and the
 * rest take from one to seven bytes. `ld --wrap=read --wrap=write` puts them in the place of the
 * system's, so that a test can see that a host minds neither.
 */
#include <errno.h>
#include <unistd.h>

ssize_t __real_read(int from, void *bytes, size_t room);
ssize_t __real_write(int to, const void *bytes, size_t count);
ssize_t __wrap_read(int from, void *bytes, size_t room);
ssize_t __wrap_write(int to, const void *bytes, size_t count);

static unsigned calls;

static int interrupted(void) {
    errno = EINTR;
    return calls++ % 2 == 0;
}

static size_t few(size_t count) {
    size_t most = 1 + calls / 2 % 7;
    return count < most ? count : most;
}

ssize_t __wrap_read(int from, void *bytes, size_t room) {
    return interrupted() ? -1 : __real_read(from, bytes, few(room));
}

ssize_t __wrap_write(int to, const void *bytes, size_t count) {
    return interrupted() ? -1 : __real_write(to, bytes, few(count));
}
