// An allocator whose call number REFUSE_AT answers null. At the end it tells in REFUSE_COUNT how many calls there were.
#define _GNU_SOURCE
#include <dlfcn.h>
#include <errno.h>
#include <fcntl.h>
#include <stdio.h>
#include <stdlib.h>
#include <unistd.h>

static long calls, refused;

static int refuses(void) {
    if (refused == 0) {
        const char *at = getenv("REFUSE_AT");
        refused = at ? atol(at) : -1;
    }
    return ++calls == refused;
}

void *malloc(size_t size) {
    static void *(*next)(size_t);
    if (!next) next = dlsym(RTLD_NEXT, "malloc");
    if (refuses()) { errno = ENOMEM; return 0; }
    return next(size);
}

void *realloc(void *old, size_t size) {
    static void *(*next)(void *, size_t);
    if (!next) next = dlsym(RTLD_NEXT, "realloc");
    if (refuses()) { errno = ENOMEM; return 0; }
    return next(old, size);
}

int posix_memalign(void **out, size_t align, size_t size) {
    static int (*next)(void **, size_t, size_t);
    if (!next) next = dlsym(RTLD_NEXT, "posix_memalign");
    if (refuses()) return ENOMEM;
    return next(out, align, size);
}

void *aligned_alloc(size_t align, size_t size) {
    static void *(*next)(size_t, size_t);
    if (!next) next = dlsym(RTLD_NEXT, "aligned_alloc");
    if (refuses()) { errno = ENOMEM; return 0; }
    return next(align, size);
}

__attribute__((destructor)) static void tell(void) {
    const char *path = getenv("REFUSE_COUNT");
    int file = path ? open(path, O_WRONLY | O_CREAT | O_TRUNC, 0600) : -1;
    if (file >= 0) { dprintf(file, "%ld", calls); close(file); }
}
