/* Loaded before a program by LD_PRELOAD: the allocation with the number in REFUSED gets no memory, counted from 1; where
   COUNTED names a file, the number of all allocations is written to it at the end. */
#define _GNU_SOURCE
#include <dlfcn.h>
#include <errno.h>
#include <stdio.h>
#include <stdlib.h>

static unsigned long asked, refused;
static int ready;

static int refuses(void)
{
    if (!ready) {
        const char *number = getenv("REFUSED");
        refused = number ? strtoul(number, NULL, 10) : 0;
        ready = 1;
    }
    asked++;
    return asked == refused;
}

void *malloc(size_t size)
{
    static void *(*real)(size_t);
    if (!real)
        real = (void *(*)(size_t))dlsym(RTLD_NEXT, "malloc");
    if (refuses()) {
        errno = ENOMEM;
        return NULL;
    }
    return real(size);
}

void *realloc(void *old, size_t size)
{
    static void *(*real)(void *, size_t);
    if (!real)
        real = (void *(*)(void *, size_t))dlsym(RTLD_NEXT, "realloc");
    if (refuses()) {
        errno = ENOMEM;
        return NULL;
    }
    return real(old, size);
}

void *aligned_alloc(size_t alignment, size_t size)
{
    static void *(*real)(size_t, size_t);
    if (!real)
        real = (void *(*)(size_t, size_t))dlsym(RTLD_NEXT, "aligned_alloc");
    if (refuses()) {
        errno = ENOMEM;
        return NULL;
    }
    return real(alignment, size);
}

int posix_memalign(void **place, size_t alignment, size_t size)
{
    static int (*real)(void **, size_t, size_t);
    if (!real)
        real = (int (*)(void **, size_t, size_t))dlsym(RTLD_NEXT, "posix_memalign");
    if (refuses())
        return ENOMEM;
    return real(place, alignment, size);
}

__attribute__((destructor)) static void tell(void)
{
    const char *path = getenv("COUNTED");
    unsigned long made = asked;
    FILE *file = path ? fopen(path, "w") : NULL;
    if (file) {
        fprintf(file, "%lu\n", made);
        fclose(file);
    }
}
