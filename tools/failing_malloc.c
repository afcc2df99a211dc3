/* A library to load before a program: the allocation whose number is in FAIL_AT, counted from 1, fails. With
   COUNT_TO, the number of all allocations is written to that file when the program ends, also where it ends by _exit. */
#define _GNU_SOURCE
#include <dlfcn.h>
#include <stdio.h>
#include <stdlib.h>
#include <unistd.h>

static unsigned long made;

static int fails(void) {
    const char *at = getenv("FAIL_AT");
    made += 1;
    return at != NULL && made == strtoul(at, NULL, 10);
}

void *malloc(size_t size) {
    static void *(*real)(size_t);
    if (real == NULL)
        real = (void *(*)(size_t))dlsym(RTLD_NEXT, "malloc");
    return fails() ? NULL : real(size);
}

void *realloc(void *old, size_t size) {
    static void *(*real)(void *, size_t);
    if (real == NULL)
        real = (void *(*)(void *, size_t))dlsym(RTLD_NEXT, "realloc");
    return fails() ? NULL : real(old, size);
}

static void tell(void) {
    static int told;
    unsigned long count = made;
    const char *path = getenv("COUNT_TO");
    FILE *file = path == NULL || told ? NULL : fopen(path, "w");
    told = 1;
    if (file != NULL) {
        fprintf(file, "%lu\n", count);
        fclose(file);
    }
}

__attribute__((destructor)) static void end(void) {
    tell();
}

void _exit(int status) {
    static void (*real)(int);
    tell();
    real = (void (*)(int))dlsym(RTLD_NEXT, "_exit");
    real(status);
    __builtin_unreachable();
}
