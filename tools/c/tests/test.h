/* What the tests share: they end the program where a claim fails. */
#include <kcas.h>
#include <pthread.h>
#include <stdio.h>
#include <stdlib.h>

#define CLAIM(what) \
    do { \
        if (!(what)) { \
            fprintf(stderr, "%s:%d: not so: %s\n", __FILE__, __LINE__, #what); \
            abort(); \
        } \
    } while (0)

static inline uint32_t drawn(uint32_t *state) { return *state = *state * 1664525u + 1013904223u; }

static inline int times(int argc, char **argv, int usual) { return argc > 1 ? atoi(argv[1]) : usual; }
