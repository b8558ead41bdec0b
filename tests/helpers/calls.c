/* Loaded before a program, this library tells of its reads of the standard input and its writes to the
   standard output: a letter for each, `r` or `w`, and `R` or `W` for one that it fails, to the descriptor in
   TELL. It fails the read or the write whose number, from 1, stands in CALLS_READ or CALLS_WRITE, and
   only that one, as interrupted where CALLS_INTERRUPT is set; where CALLS_SHORT is, that one takes one byte and
   doesn't fail. Where CALLS_MOST is, the others take at most so many bytes. Where CALLS_ALL is set, it does so with the reads and writes of all files. A file whose path
   ends with CALLS_OPEN can't be opened, for want of memory. */
#define _GNU_SOURCE
#include <dlfcn.h>
#include <errno.h>
#include <fcntl.h>
#include <stdarg.h>
#include <stdlib.h>
#include <string.h>
#include <unistd.h>

static ssize_t (*real_read)(int, void *, size_t);
static ssize_t (*real_write)(int, const void *, size_t);
static int (*real_open)(const char *, int, ...);
static const char *unopened;
static int tell = -1;
static int all, is_short;
static long failing_read, failing_write, most;
static int error = EIO;
static long reads, writes;

static long number_in(const char *name) {
    const char *text = getenv(name);
    return text ? atol(text) : 0;
}

__attribute__((constructor)) static void start(void) {
    real_read = (ssize_t (*)(int, void *, size_t))dlsym(RTLD_NEXT, "read");
    real_write = (ssize_t (*)(int, const void *, size_t))dlsym(RTLD_NEXT, "write");
    real_open = (int (*)(const char *, int, ...))dlsym(RTLD_NEXT, "open");
    unopened = getenv("CALLS_OPEN");
    tell = (int)number_in("TELL");
    failing_read = number_in("CALLS_READ");
    failing_write = number_in("CALLS_WRITE");
    most = number_in("CALLS_MOST");
    all = getenv("CALLS_ALL") != NULL;
    is_short = getenv("CALLS_SHORT") != NULL;
    if (getenv("CALLS_INTERRUPT"))
        error = EINTR;
}

/* Tells of a call, and how many bytes it takes; of one that fails, more than there are. */
static size_t taken(long number, long failing, const char *letters, size_t size) {
    int is_meant = number == failing;
    if (real_write(tell, &letters[is_meant], 1) != 1)
        _exit(99);
    if (is_meant && !is_short)
        return size + 1;
    long bound = is_meant ? 1 : most;
    return bound && size > (size_t)bound ? (size_t)bound : size;
}

ssize_t read(int file, void *room, size_t size) {
    size_t count = all || file == STDIN_FILENO ? taken(++reads, failing_read, "rR", size) : size;
    if (count > size) {
        errno = error;
        return -1;
    }
    return real_read(file, room, count);
}

ssize_t write(int file, const void *bytes, size_t size) {
    size_t count = all || file == STDOUT_FILENO ? taken(++writes, failing_write, "wW", size) : size;
    if (count > size) {
        errno = error;
        return -1;
    }
    return real_write(file, bytes, count);
}

/* Whether a path ends with the name of the file that can't be opened. */
static int is_unopened(const char *path) {
    size_t size = strlen(path), end = unopened ? strlen(unopened) : 0;
    return end != 0 && size >= end && strcmp(path + size - end, unopened) == 0;
}

int open(const char *path, int flags, ...) {
    va_list more;
    va_start(more, flags);
    mode_t mode = flags & O_CREAT ? va_arg(more, mode_t) : 0;
    va_end(more);
    if (is_unopened(path)) {
        errno = ENOMEM;
        return -1;
    }
    return real_open(path, flags, mode);
}
