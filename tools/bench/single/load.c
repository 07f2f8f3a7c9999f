// A bare load of one atomic word. Prints lines 'ns NAME tenths', as the program in Rattle does. What was read is printed in sum, so that no
// load is left out.
#include <stdatomic.h>
#include <stdint.h>
#include <stdio.h>
#include <time.h>

static _Atomic uint64_t word = 7;

static double now(void) {
    struct timespec at;
    clock_gettime(CLOCK_MONOTONIC, &at);
    return at.tv_sec * 1e9 + at.tv_nsec;
}

int main(void) {
    enum { ROUNDS = 20, EACH = 10000000 };
    uint64_t sum = 0;
    for (int round = 0; round < ROUNDS; round++) {
        double start = now();
        for (int i = 0; i < EACH; i++) {
            sum += atomic_load(&word);
        }
        printf("ns load %.0f\n", (now() - start) * 10 / EACH);
    }
    printf("sum of_what_was_read %llu\n", (unsigned long long)sum);
    return 0;
}
