/* Notes the flushes and renames of a program on standard error, the latter by the last names of their paths, and refuses one flush: a
 * library to be loaded before the C library.
 *
 * FAIL_AT=N refuses the Nth flush (none without it), as a disk that fails does. What is refused is not done, and not noted.
 */
#define _GNU_SOURCE
#include <dlfcn.h>
#include <errno.h>
#include <stdio.h>
#include <stdlib.h>
#include <string.h>
#include <sys/stat.h>
#include <unistd.h>

static long flushes;

int fsync(int fd) {
    int (*real)(int) = dlsym(RTLD_NEXT, "fsync");
    const char *at = getenv("FAIL_AT");
    if (++flushes == (at ? atol(at) : 0)) {
        errno = EIO;
        return -1;
    }
    struct stat info;
    dprintf(STDERR_FILENO, "flush %s\n", !fstat(fd, &info) && S_ISDIR(info.st_mode) ? "folder" : "file");
    return real(fd);
}

static const char *last(const char *path) {
    const char *slash = strrchr(path, '/');
    return slash ? slash + 1 : path;
}

int rename(const char *from, const char *to) {
    int (*real)(const char *, const char *) = dlsym(RTLD_NEXT, "rename");
    dprintf(STDERR_FILENO, "rename %s %s\n", last(from), last(to));
    return real(from, to);
}
