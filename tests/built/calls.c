// Has calls of the system fail, or kills the program at one of them: those of the program that this is loaded into (LD_PRELOAD), from the
// CALLS_FIRST-th to the CALLS_LAST-th, counted from 1 once the program was loaded, both of the environment. They fail with the error whose
// number is CALLS_ERROR; where that is 0 the program is killed before the first of them. Only those calls are counted that the program makes
// of files and folders. At the program's end it writes to the file CALLS_REPORT how many calls were made, and how many of them failed.
#define _GNU_SOURCE
#include <dirent.h>
#include <dlfcn.h>
#include <errno.h>
#include <fcntl.h>
#include <signal.h>
#include <stdarg.h>
#include <stdio.h>
#include <stdlib.h>
#include <sys/file.h>
#include <sys/stat.h>
#include <unistd.h>

static unsigned long first, last, error, made, failed;
static int is_counting;

static unsigned long number_of(const char *name) {
    const char *text = getenv(name);
    return text ? strtoul(text, NULL, 10) : 0;
}

__attribute__((constructor)) static void start(void) {
    first = number_of("CALLS_FIRST");
    last = number_of("CALLS_LAST");
    error = number_of("CALLS_ERROR");
    is_counting = 1;
}

__attribute__((destructor)) static void report(void) {
    const char *path = getenv("CALLS_REPORT");
    is_counting = 0;
    FILE *file = path ? fopen(path, "w") : NULL;
    if (file) {
        fprintf(file, "%lu %lu\n", made, failed);
        fclose(file);
    }
}

// Whether this call fails. It does not return where the program is killed at it.
static int is_failing(void) {
    if (!is_counting) {
        return 0;
    }
    made++;
    if (made < first || made > last) {
        return 0;
    }
    if (!error) {
        kill(getpid(), SIGKILL);
    }
    failed++;
    errno = (int)error;
    return 1;
}

// A call of the C library behind this one.
#define NEXT(name) ((__typeof__(&name))dlsym(RTLD_NEXT, #name))

// A call that answers -1 where it fails.
#define CALL(type, name, declared, given)             \
    type name declared {                              \
        return is_failing() ? -1 : NEXT(name) given;  \
    }

CALL(int, mkdir, (const char *path, mode_t mode), (path, mode))
CALL(int, rename, (const char *from, const char *to), (from, to))
CALL(int, rmdir, (const char *path), (path))
CALL(int, unlink, (const char *path), (path))
CALL(int, unlinkat, (int at, const char *path, int flags), (at, path, flags))
CALL(int, fsync, (int file), (file))
CALL(int, flock, (int file, int how), (file, how))
CALL(ssize_t, read, (int file, void *bytes, size_t count), (file, bytes, count))
CALL(ssize_t, write, (int file, const void *bytes, size_t count), (file, bytes, count))
CALL(ssize_t, pread, (int file, void *bytes, size_t count, off_t at), (file, bytes, count, at))
CALL(ssize_t, pread64, (int file, void *bytes, size_t count, off64_t at), (file, bytes, count, at))
CALL(ssize_t, getdents64, (int folder, void *names, size_t count), (folder, names, count))
CALL(int, statx, (int at, const char *path, int flags, unsigned mask, struct statx *found), (at, path, flags, mask, found))

// The mode of a file that is made, where these flags make one.
#define MODE(flags, mode)                 \
    va_list rest;                         \
    mode_t mode = 0;                      \
    va_start(rest, flags);                \
    if (flags & O_CREAT) {                \
        mode = (mode_t)va_arg(rest, int); \
    }                                     \
    va_end(rest)

int open(const char *path, int flags, ...) {
    MODE(flags, mode);
    return is_failing() ? -1 : NEXT(open)(path, flags, mode);
}

int open64(const char *path, int flags, ...) {
    MODE(flags, mode);
    return is_failing() ? -1 : NEXT(open64)(path, flags, mode);
}

int openat(int at, const char *path, int flags, ...) {
    MODE(flags, mode);
    return is_failing() ? -1 : NEXT(openat)(at, path, flags, mode);
}

int openat64(int at, const char *path, int flags, ...) {
    MODE(flags, mode);
    return is_failing() ? -1 : NEXT(openat64)(at, path, flags, mode);
}
