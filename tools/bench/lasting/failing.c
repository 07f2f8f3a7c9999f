// For LD_PRELOAD: a malloc and a realloc that refuse so many calls in turn, once so many were granted.
// Usage: GRANTED=45 REFUSED=100000 LD_PRELOAD=.. PROGRAM
#define _GNU_SOURCE
#include <dlfcn.h>
#include <stdatomic.h>
#include <stdlib.h>

static atomic_ulong calls;

static unsigned long number(const char *name) {
    const char *said = getenv(name);
    return said ? strtoul(said, NULL, 10) : 0;
}

static int refuses(void) {
    static unsigned long granted, refused;
    unsigned long call = calls++;
    if (call == 0) {
        granted = number("GRANTED");
        refused = number("REFUSED");
    }
    return granted <= call && call - granted < refused;
}

void *malloc(size_t size) {
    static void *(*real)(size_t);
    if (!real) {
        real = (void *(*)(size_t))dlsym(RTLD_NEXT, "malloc");
    }
    return refuses() ? NULL : real(size);
}

void *realloc(void *held, size_t size) {
    static void *(*real)(void *, size_t);
    if (!real) {
        real = (void *(*)(void *, size_t))dlsym(RTLD_NEXT, "realloc");
    }
    return refuses() ? NULL : real(held, size);
}
