// The device of a store, loaded before the C library (LD_PRELOAD), for the script `stops`. Of the calls on the database
// STOP_STORE, or on its write-ahead log if STOP_LOG is 1, the first STOP_AT succeed and each later one fails. When one of the
// two files is synced, its bytes are copied to a file with `.synced` behind its name. If STOP_TELL is 1 the number of calls on
// the file is printed at the end.
#define _GNU_SOURCE
#include <errno.h>
#include <fcntl.h>
#include <limits.h>
#include <stdarg.h>
#include <stdio.h>
#include <stdlib.h>
#include <string.h>
#include <sys/syscall.h>
#include <sys/types.h>
#include <unistd.h>

enum { MOST_FILES = 256 };

// The path of each open file that is the database or its log.
static char *paths[MOST_FILES];
static const char *store;
static char stopping[PATH_MAX];
static long calls, most;

__attribute__((constructor)) static void begin(void) {
    store = getenv("STOP_STORE");
    snprintf(stopping, sizeof stopping, "%s%s", store, atoi(getenv("STOP_LOG")) ? "-wal" : "");
    most = atol(getenv("STOP_AT"));
}

__attribute__((destructor)) static void end(void) {
    if (atoi(getenv("STOP_TELL")))
        dprintf(2, "calls=%ld\n", calls);
}

static int is_ours(int file) { return file >= 0 && file < MOST_FILES && paths[file]; }

// Whether a call on a file fails.
static int stops(int file) {
    if (!is_ours(file) || strcmp(paths[file], stopping) || calls++ < most)
        return 0;
    errno = EIO;
    return 1;
}

static int opened(int file, const char *path) {
    size_t length = strlen(store);
    if (file >= 0 && file < MOST_FILES) {
        free(paths[file]);
        paths[file] = !strncmp(path, store, length) && (!path[length] || !strcmp(path + length, "-wal")) ? strdup(path) : NULL;
    }
    return file;
}

int openat(int folder, const char *path, int flags, ...) {
    va_list rest;
    va_start(rest, flags);
    mode_t mode = flags & (O_CREAT | O_TMPFILE) ? va_arg(rest, mode_t) : 0;
    va_end(rest);
    return opened(syscall(SYS_openat, folder, path, flags, mode), path);
}

int openat64(int folder, const char *path, int flags, ...) __attribute__((alias("openat")));

int open(const char *path, int flags, ...) {
    va_list rest;
    va_start(rest, flags);
    mode_t mode = flags & (O_CREAT | O_TMPFILE) ? va_arg(rest, mode_t) : 0;
    va_end(rest);
    return opened(syscall(SYS_openat, AT_FDCWD, path, flags, mode), path);
}

int open64(const char *path, int flags, ...) __attribute__((alias("open")));

int close(int file) {
    opened(file, "");
    return syscall(SYS_close, file);
}

ssize_t pread(int file, void *bytes, size_t count, off_t at) { return stops(file) ? -1 : syscall(SYS_pread64, file, bytes, count, at); }

ssize_t pread64(int file, void *bytes, size_t count, off_t at) __attribute__((alias("pread")));

ssize_t pwrite(int file, const void *bytes, size_t count, off_t at) { return stops(file) ? -1 : syscall(SYS_pwrite64, file, bytes, count, at); }

ssize_t pwrite64(int file, const void *bytes, size_t count, off_t at) __attribute__((alias("pwrite")));

int ftruncate(int file, off_t length) { return stops(file) ? -1 : syscall(SYS_ftruncate, file, length); }

int ftruncate64(int file, off_t length) __attribute__((alias("ftruncate")));

// Copies a file that was synced.
static void keep(int file) {
    char name[PATH_MAX], bytes[65536];
    snprintf(name, sizeof name, "%s.synced", paths[file]);
    int to = syscall(SYS_openat, AT_FDCWD, name, O_WRONLY | O_CREAT | O_TRUNC, 0600);
    ssize_t count;
    for (off_t at = 0; (count = syscall(SYS_pread64, file, bytes, sizeof bytes, at)) > 0; at += count)
        if (syscall(SYS_write, to, bytes, count) != count)
            abort();
    syscall(SYS_close, to);
}

static int sync_file(int file) {
    if (stops(file))
        return -1;
    if (is_ours(file))
        keep(file);
    return 0;
}

int fsync(int file) { return sync_file(file); }

int fdatasync(int file) { return sync_file(file); }
