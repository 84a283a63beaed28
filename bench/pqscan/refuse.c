// Refuses one allocation of a program that it is loaded before: the one whose number REFUSE gives, the first being 1. Where COUNT names
// a file, how many allocations there were is written to it at the end.
#define _GNU_SOURCE
#include <dlfcn.h>
#include <errno.h>
#include <stdio.h>
#include <stdlib.h>

static long allocations;

static int is_refused(void) {
    const char *number = getenv("REFUSE");
    allocations += 1;
    if (number == NULL || allocations != atol(number))
        return 0;
    errno = ENOMEM;
    return 1;
}

void *malloc(size_t size) {
    static void *(*next)(size_t);
    if (next == NULL)
        next = (void *(*)(size_t))dlsym(RTLD_NEXT, "malloc");
    return is_refused() ? NULL : next(size);
}

void *realloc(void *block, size_t size) {
    static void *(*next)(void *, size_t);
    if (next == NULL)
        next = (void *(*)(void *, size_t))dlsym(RTLD_NEXT, "realloc");
    return is_refused() ? NULL : next(block, size);
}

__attribute__((destructor)) static void write_count(void) {
    const char *name = getenv("COUNT");
    long count = allocations;
    FILE *file = name == NULL ? NULL : fopen(name, "w");
    if (file != NULL) {
        fprintf(file, "%ld\n", count);
        fclose(file);
    }
}
