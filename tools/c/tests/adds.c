/* kcas_add does and answers what kcas_try of one KCAS_ADD does, and each wrong call changes nothing; no add of four threads is lost, and each
 * value before was told once; a waiter is woken, and one that hangs is named in wakes. */
#include "test.h"
#include <string.h>

enum { THREADS = 4 };
static kcas_caller callers[THREADS + 1];
static kcas_bell bell;
static int adds;
static uint8_t *told;

static void refusals(void) {
    uint32_t values[3] = { 5, 6, 7 }, before = 99, value, version;
    uint64_t wakes = 77;
    kcas_caller a[2] = { KCAS_CALLER_INIT, KCAS_CALLER_INIT };
    kcas_op waits = kcas_check(1, KCAS_EQ, 9);
    kcas_reply reply;
    CLAIM(kcas_add(&a[0], 0, 1, &before, &wakes) == KCAS_CLOSED && before == 99 && wakes == 77);
    CLAIM(kcas_open(values, 3, a, 2) == KCAS_DONE);
    CLAIM(kcas_add(&a[0], 3, 1, &before, &wakes) == KCAS_BAD_OPS && kcas_add(&a[0], 0xffffffff, 1, &before, &wakes) == KCAS_BAD_OPS && before == 99 && wakes == 77);
    CLAIM(kcas_commit_add(NULL, &a[0], 3, 1, &before) == KCAS_BAD_OPS && before == 99);
    CLAIM(kcas_try(&a[0], &waits, 1, &reply, 1, &wakes) == KCAS_LATER && kcas_hang(&a[0]) == KCAS_GOING);
    wakes = 77;
    CLAIM(kcas_add(&a[0], 1, 1, &before, &wakes) == KCAS_NOT_NOW && before == 99 && wakes == 77);
    while (kcas_hang_step(&a[0]) == KCAS_GOING) {}
    CLAIM(kcas_add(&a[0], 1, 1, &before, &wakes) == KCAS_NOT_NOW && before == 99 && wakes == 77);
    CLAIM(kcas_signalled(&a[0]) == KCAS_QUIET);
    CLAIM(kcas_add(&a[1], 0, 1, &before, &wakes) == KCAS_DONE && before == 5 && wakes == 0 && kcas_signalled(&a[0]) == KCAS_QUIET);
    CLAIM(kcas_add(&a[1], 1, 3, &before, &wakes) == KCAS_DONE && before == 6 && wakes == 1 && kcas_signalled(&a[0]) == KCAS_SIGNALLED);
    CLAIM(kcas_leave(&a[0]) == KCAS_LEAVING);
    while (kcas_hang_step(&a[0]) == KCAS_LEAVING) {}
    CLAIM(kcas_try(&a[0], &waits, 1, &reply, 1, &wakes) == KCAS_DONE);
    CLAIM(kcas_read(&a[0], 2, &value, &version) == KCAS_DONE && value == 7 && version == 0);
    CLAIM(kcas_close(&a[0]) == KCAS_DONE && kcas_close(&a[1]) == KCAS_DONE && kcas_add(&a[1], 0, 1, &before, &wakes) == KCAS_CLOSED && before == 6);
}

/* On two stores, by an add and by an operation: the same value before, the same reads, the same value and version then. */
static void as_tried(void) {
    const uint32_t numbers[] = { 0, 1, 0x7fffffff, 0xfffffffa, 0xffffffff };
    uint32_t values[2] = { 5, 6 };
    kcas_caller by_add[1] = { KCAS_CALLER_INIT }, by_op[1] = { KCAS_CALLER_INIT };
    CLAIM(kcas_open(values, 2, by_add, 1) == KCAS_DONE && kcas_open(values, 2, by_op, 1) == KCAS_DONE);
    for (size_t i = 0; i < 10; i++) {
        uint32_t at = i % 2, before = 99, value, version, as_value, as_version;
        uint64_t wakes = 77, as_wakes = 77;
        kcas_op op = kcas_at(at, KCAS_ADD, numbers[i / 2], 0);
        kcas_reply reply = { 99, 99 };
        kcas_seen seen[2], as_seen[2];
        CLAIM(kcas_add(by_add, at, numbers[i / 2], &before, &wakes) == KCAS_DONE && kcas_try(by_op, &op, 1, &reply, 1, &as_wakes) == KCAS_DONE);
        CLAIM(reply.kind == KCAS_VALUE && reply.value == before && wakes == 0 && as_wakes == 0);
        CLAIM(kcas_reads(by_add, seen, 2) == 1 && kcas_reads(by_op, as_seen, 2) == 1 && memcmp(seen, as_seen, sizeof seen[0]) == 0 && seen[0].value == before);
        CLAIM(kcas_read(by_add, at, &value, &version) == KCAS_DONE && kcas_read(by_op, at, &as_value, &as_version) == KCAS_DONE);
        CLAIM(value == as_value && version == as_version && value == before + numbers[i / 2] && version == i / 2 + 1);
    }
    CLAIM(kcas_close(by_add) == KCAS_DONE && kcas_close(by_op) == KCAS_DONE);
}

/* Each thread draws tickets of one location, and adds as much to another one as it takes away again. */
static void *adder(void *arg) {
    kcas_caller mine = callers[(size_t)arg];
    uint32_t state = (uint32_t)(size_t)arg + 1, before;
    for (int i = 0; i < adds; i++) {
        uint32_t number = drawn(&state);
        CLAIM(kcas_commit_add(&bell, &mine, 0, 1, &before) == KCAS_DONE && before < (uint32_t)adds * THREADS);
        told[before]++;
        CLAIM(kcas_commit_add(&bell, &mine, 1, number, &before) == KCAS_DONE && kcas_commit_add(&bell, &mine, 1, -number, &before) == KCAS_DONE);
    }
    callers[(size_t)arg] = mine;
    return NULL;
}

/* Waits until all tickets are drawn. */
static void *waiter(void *arg) {
    kcas_op all = kcas_check(0, KCAS_EQ, (uint32_t)adds * THREADS);
    kcas_reply reply;
    (void)arg;
    CLAIM(kcas_commit_waiting(&bell, &callers[THREADS], &all, 1, &reply, 1) == KCAS_DONE);
    return NULL;
}

int main(int argc, char **argv) {
    uint32_t values[2] = { 0, 40 }, value, version;
    pthread_t threads[THREADS + 1];
    adds = times(argc, argv, 50000);
    refusals();
    as_tried();
    told = calloc((size_t)adds * THREADS, 1);
    CLAIM(told && kcas_open(values, 2, callers, THREADS + 1) == KCAS_DONE);
    pthread_create(&threads[THREADS], NULL, waiter, NULL);
    for (size_t i = 0; i < THREADS; i++) pthread_create(&threads[i], NULL, adder, (void *)i);
    for (size_t i = 0; i <= THREADS; i++) pthread_join(threads[i], NULL);
    for (int i = 0; i < adds * THREADS; i++) CLAIM(told[i] == 1);
    CLAIM(kcas_read(&callers[0], 0, &value, &version) == KCAS_DONE && value == (uint32_t)adds * THREADS && version == value);
    CLAIM(kcas_read(&callers[0], 1, &value, &version) == KCAS_DONE && value == 40);
    for (int i = 0; i <= THREADS; i++) CLAIM(kcas_close(&callers[i]) == KCAS_DONE);
    free(told);
    return 0;
}
