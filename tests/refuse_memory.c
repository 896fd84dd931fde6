/* Loaded before the C library: refuses the allocation that REFUSE counts from 1, and marks each one by a byte on descriptor 9. */
#define _GNU_SOURCE
#include <dlfcn.h>
#include <stdlib.h>
#include <unistd.h>

static long calls, refused = -1;

static int refuse(void)
{
    if (refused < 0) {
        const char *number = getenv("REFUSE");
        refused = number ? atol(number) : 0;
    }
    if (write(9, ".", 1) < 0)
        _exit(99);
    return ++calls == refused;
}

void *malloc(size_t size)
{
    static void *(*real)(size_t);
    if (!real)
        real = dlsym(RTLD_NEXT, "malloc");
    return refuse() ? NULL : real(size);
}

void *realloc(void *block, size_t size)
{
    static void *(*real)(void *, size_t);
    if (!real)
        real = dlsym(RTLD_NEXT, "realloc");
    return refuse() ? NULL : real(block, size);
}
