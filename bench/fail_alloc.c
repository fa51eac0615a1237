// Stands in for the system's malloc and realloc: of the calls for memory that this program makes the one with the number FAIL_ALLOC, from 1, is refused.
// Then the file FAIL_ALLOC_TOLD is made.
#define _GNU_SOURCE
#include <dlfcn.h>
#include <fcntl.h>
#include <stdatomic.h>
#include <stdlib.h>
#include <unistd.h>

static atomic_ulong calls;

static int is_refused(void) {
    static unsigned long number;
    if (!number) {
        const char *text = getenv("FAIL_ALLOC");
        number = text ? strtoul(text, 0, 10) : -1UL;
    }
    if (atomic_fetch_add(&calls, 1) + 1 != number) {
        return 0;
    }
    int told = open(getenv("FAIL_ALLOC_TOLD"), O_CREAT | O_WRONLY, 0600);
    if (told >= 0) {
        close(told);
    }
    return 1;
}

void *malloc(size_t size) {
    static void *(*real)(size_t);
    if (!real) {
        real = dlsym(RTLD_NEXT, "malloc");
    }
    return is_refused() ? 0 : real(size);
}

void *realloc(void *old, size_t size) {
    static void *(*real)(void *, size_t);
    if (!real) {
        real = dlsym(RTLD_NEXT, "realloc");
    }
    return is_refused() ? 0 : real(old, size);
}
