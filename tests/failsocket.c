/* Makes calls of a program fail: a library to be loaded before the C library.
 *
 * FAIL_CALL names the call, `sendto`, `recvfrom` or `clock_gettime`; FAIL_ERRNO is the number of its error; FAIL_AT=N fails the Nth call
 * of that name, and FAIL_TIMES=M as many from there on, one without it. What fails is not done. Of `clock_gettime` the calls count
 * that come behind the first `recvfrom`: how often a program reads a clock before depends on how it was compiled.
 */
#define _GNU_SOURCE
#include <dlfcn.h>
#include <errno.h>
#include <stdlib.h>
#include <string.h>
#include <sys/socket.h>
#include <sys/syscall.h>
#include <time.h>
#include <unistd.h>

static long calls;
static int has_received;

static long number(const char *name, long without) {
    const char *value = getenv(name);
    return value ? atol(value) : without;
}

static int fails(const char *name) {
    const char *wanted = getenv("FAIL_CALL");
    if (!wanted || strcmp(wanted, name)) return 0;
    long at = number("FAIL_AT", 1);
    if (++calls < at || calls >= at + number("FAIL_TIMES", 1)) return 0;
    errno = number("FAIL_ERRNO", EIO);
    return 1;
}

ssize_t sendto(int fd, const void *data, size_t size, int flags, const struct sockaddr *to, socklen_t length) {
    ssize_t (*real)(int, const void *, size_t, int, const struct sockaddr *, socklen_t) = dlsym(RTLD_NEXT, "sendto");
    return fails("sendto") ? -1 : real(fd, data, size, flags, to, length);
}

ssize_t recvfrom(int fd, void *data, size_t size, int flags, struct sockaddr *from, socklen_t *length) {
    ssize_t (*real)(int, void *, size_t, int, struct sockaddr *, socklen_t *) = dlsym(RTLD_NEXT, "recvfrom");
    has_received = 1;
    return fails("recvfrom") ? -1 : real(fd, data, size, flags, from, length);
}

/* Programs with checks read a clock before dlsym can be called. */
int clock_gettime(clockid_t clock, struct timespec *at) {
    return has_received && fails("clock_gettime") ? -1 : (int)syscall(SYS_clock_gettime, clock, at);
}
