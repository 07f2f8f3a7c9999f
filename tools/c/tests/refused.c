/* Each allocation of an open is refused in turn: then all handles are closed and nothing is kept, and a later open succeeds.
 * Linked with --wrap=malloc and the like. */
#include "test.h"

static long left = -1, taken, given;

void *__real_malloc(size_t size);
void *__real_realloc(void *at, size_t size);
void __real_free(void *at);

static int refuses(void) { return left >= 0 && left-- == 0; }

void *__wrap_malloc(size_t size) {
    if (refuses()) return NULL;
    taken++;
    return __real_malloc(size);
}

void *__wrap_realloc(void *at, size_t size) {
    if (refuses()) return NULL;
    if (!at) taken++;
    return __real_realloc(at, size);
}

void __wrap_free(void *at) {
    if (at) given++;
    __real_free(at);
}

int main(void) {
    uint32_t values[64] = { 0 };
    kcas_caller callers[5] = { KCAS_CALLER_INIT };
    for (long n = 0;; n++) {
        left = n;
        uint32_t answer = kcas_open(values, 64, callers, 5);
        left = -1;
        if (answer == KCAS_DONE) {
            for (int i = 0; i < 5; i++) CLAIM(kcas_close(&callers[i]) == KCAS_DONE);
            CLAIM(taken == given);
            printf("%ld allocations refused in turn\n", n);
            return n > 0 ? 0 : 1;
        }
        CLAIM(answer == KCAS_NO_MEMORY && taken == given);
        for (int i = 0; i < 5; i++) CLAIM(kcas_is_open(&callers[i]) == 0);
    }
}
