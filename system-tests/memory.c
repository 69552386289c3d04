// Loaded before the C library (LD_PRELOAD), for the script `memory`. The FAIL_AT-th memory allocation fails. With FAIL_TELL the
// number of allocations is printed at the end. With SHORT_IO each read and each write transfers one byte. HANDED_SOCKET is a
// descriptor that the program finds where a service manager puts it.
#define _GNU_SOURCE
#include <dlfcn.h>
#include <errno.h>
#include <stdio.h>
#include <stdlib.h>
#include <unistd.h>

extern void *__libc_malloc(size_t);
extern void *__libc_calloc(size_t, size_t);
extern void *__libc_realloc(void *, size_t);
extern void *__libc_memalign(size_t, size_t);

static long asked = 0, refused = -2;

static int is_refused(void) {
    if (refused == -2) {
        const char *at = getenv("FAIL_AT");
        refused = at ? atol(at) : -1;
    }
    if (++asked != refused)
        return 0;
    errno = ENOMEM;
    return 1;
}

void *malloc(size_t n) { return is_refused() ? NULL : __libc_malloc(n); }
void *calloc(size_t a, size_t b) { return is_refused() ? NULL : __libc_calloc(a, b); }
void *realloc(void *p, size_t n) { return is_refused() ? NULL : __libc_realloc(p, n); }
void *aligned_alloc(size_t a, size_t n) { return is_refused() ? NULL : __libc_memalign(a, n); }

int posix_memalign(void **out, size_t a, size_t n) {
    void *p = is_refused() ? NULL : __libc_memalign(a, n);
    if (!p)
        return ENOMEM;
    *out = p;
    return 0;
}

static size_t at_once(size_t n) { return n > 1 && getenv("SHORT_IO") ? 1 : n; }

ssize_t read(int fd, void *bytes, size_t n) {
    static ssize_t (*next)(int, void *, size_t);
    if (!next)
        next = (ssize_t (*)(int, void *, size_t))dlsym(RTLD_NEXT, "read");
    return next(fd, bytes, at_once(n));
}

ssize_t write(int fd, const void *bytes, size_t n) {
    static ssize_t (*next)(int, const void *, size_t);
    if (!next)
        next = (ssize_t (*)(int, const void *, size_t))dlsym(RTLD_NEXT, "write");
    return next(fd, bytes, at_once(n));
}

__attribute__((constructor)) static void begin(void) {
    const char *handed = getenv("HANDED_SOCKET");
    if (handed && dup2(atoi(handed), 3) != 3)
        abort();
}

__attribute__((destructor)) static void tell(void) {
    if (getenv("FAIL_TELL"))
        dprintf(2, "asked=%ld\n", asked);
}
