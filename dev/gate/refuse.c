// A heap that refuses one growth: the one whose number, counted from 1, REFUSE gives.
// Loaded before libc by dev/gate/refuse_each_allocation; the program itself knows nothing of it.
#define _GNU_SOURCE
#include <dlfcn.h>
#include <stdlib.h>

static long left = -1;

static int refused(void) {
    if (left < 0) {
        const char *number = getenv("REFUSE");
        left = number ? atol(number) : 0;
    }
    if (left == 0) return 0;
    left -= 1;
    return left == 0;
}

void *malloc(size_t size) {
    static void *(*next)(size_t);
    if (!next) next = dlsym(RTLD_NEXT, "malloc");
    return refused() ? NULL : next(size);
}

void *realloc(void *old, size_t size) {
    static void *(*next)(void *, size_t);
    if (!next) next = dlsym(RTLD_NEXT, "realloc");
    return refused() ? NULL : next(old, size);
}
