// Loaded before the C library (LD_PRELOAD): tells on standard error how many bytes of memory are held at each look at the
// clock. bench/machine.sh takes what a machine has from it.
#define _GNU_SOURCE
#include <dlfcn.h>
#include <malloc.h>
#include <stdio.h>
#include <time.h>

static long held;

void *malloc(size_t size) {
    static void *(*next)(size_t);
    if (next == NULL)
        next = (void *(*)(size_t))dlsym(RTLD_NEXT, "malloc");
    void *block = next(size);
    held += (long)malloc_usable_size(block);
    return block;
}

void free(void *block) {
    static void (*next)(void *);
    if (next == NULL)
        next = (void (*)(void *))dlsym(RTLD_NEXT, "free");
    held -= (long)malloc_usable_size(block);
    next(block);
}

int clock_gettime(clockid_t clock, struct timespec *now) {
    static int (*next)(clockid_t, struct timespec *);
    if (next == NULL)
        next = (int (*)(clockid_t, struct timespec *))dlsym(RTLD_NEXT, "clock_gettime");
    fprintf(stderr, "%ld\n", held);
    return next(clock, now);
}
