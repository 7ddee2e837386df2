/* A slower disk: a library whose syncs sleep after those of the C library.
 *
 *   gcc -O2 -Wall -Wextra -shared -fPIC -o slow_sync.so slow_sync.c
 *   SLOW_MS=1 LD_PRELOAD=./slow_sync.so PROGRAM ..
 *
 * fsync, fdatasync, sync_file_range, syncfs and msync with MS_SYNC take SLOW_MS milliseconds longer (a decimal number;
 * nothing without it). PROGRAM has to be linked dynamically and to call these by the C library, not by system calls of its
 * own.
 */
#define _GNU_SOURCE
#include <dlfcn.h>
#include <errno.h>
#include <fcntl.h>
#include <stdlib.h>
#include <sys/mman.h>
#include <time.h>
#include <unistd.h>

static void pause_after_sync(void) {
    const char *text = getenv("SLOW_MS");
    double ms = text ? atof(text) : 0;
    int kept = errno;
    struct timespec rest = {(time_t)(ms / 1000), (long)(ms * 1e6) % 1000000000L};
    while (nanosleep(&rest, &rest) && errno == EINTR) {}
    errno = kept;
}

/* Calls the function of this name that would have been called without this library. */
#define NEXT(name, type, ...) ((type)dlsym(RTLD_NEXT, name))(__VA_ARGS__)

int fsync(int fd) {
    int result = NEXT("fsync", int (*)(int), fd);
    pause_after_sync();
    return result;
}

int fdatasync(int fd) {
    int result = NEXT("fdatasync", int (*)(int), fd);
    pause_after_sync();
    return result;
}

int syncfs(int fd) {
    int result = NEXT("syncfs", int (*)(int), fd);
    pause_after_sync();
    return result;
}

int sync_file_range(int fd, off64_t offset, off64_t bytes, unsigned flags) {
    int result = NEXT("sync_file_range", int (*)(int, off64_t, off64_t, unsigned), fd, offset, bytes, flags);
    if (flags & SYNC_FILE_RANGE_WAIT_AFTER) pause_after_sync();
    return result;
}

int msync(void *start, size_t length, int flags) {
    int result = NEXT("msync", int (*)(void *, size_t, int), start, length, flags);
    if (flags & MS_SYNC) pause_after_sync();
    return result;
}
