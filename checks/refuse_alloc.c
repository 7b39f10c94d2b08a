/* A library to be loaded before the C library's: it refuses the request for memory whose number, counted from 1, is
   in REFUSE_AT, and no other. */
#define _GNU_SOURCE
#include <dlfcn.h>
#include <errno.h>
#include <stdlib.h>

static int is_refused(void) {
    static long count, at = -1;
    if (at == -1) {
        const char *number = getenv("REFUSE_AT");
        at = number ? atol(number) : 0;
    }
    return ++count == at;
}

void *malloc(size_t size) {
    static void *(*real)(size_t);
    if (!real)
        real = dlsym(RTLD_NEXT, "malloc");
    if (is_refused()) {
        errno = ENOMEM;
        return NULL;
    }
    return real(size);
}

void *realloc(void *old, size_t size) {
    static void *(*real)(void *, size_t);
    if (!real)
        real = dlsym(RTLD_NEXT, "realloc");
    if (is_refused()) {
        errno = ENOMEM;
        return NULL;
    }
    return real(old, size);
}

int posix_memalign(void **place, size_t alignment, size_t size) {
    static int (*real)(void **, size_t, size_t);
    if (!real)
        real = dlsym(RTLD_NEXT, "posix_memalign");
    return is_refused() ? ENOMEM : real(place, alignment, size);
}

void *aligned_alloc(size_t alignment, size_t size) {
    static void *(*real)(size_t, size_t);
    if (!real)
        real = dlsym(RTLD_NEXT, "aligned_alloc");
    if (is_refused()) {
        errno = ENOMEM;
        return NULL;
    }
    return real(alignment, size);
}
