/* Four threads move money between eight accounts; each looks at all of them from time to time, and never sees money
 * that is on its way. */
#include <kcas.h>
#include <pthread.h>
#include <stdio.h>
#include <stdlib.h>

enum { ACCOUNTS = 8, THREADS = 4, OPENING = 1000, MOVES = 20000 };

static kcas_caller callers[THREADS];

/* Moves an amount, or answers KCAS_LATER where the account has less. */
static uint32_t move(kcas_caller *caller, uint32_t from, uint32_t to, uint32_t amount) {
    kcas_op ops[] = {
        kcas_check(from, KCAS_GE, amount),
        kcas_at(from, KCAS_ADD, -amount, 0),
        kcas_at(to, KCAS_ADD, amount, 0),
    };
    kcas_reply replies[3];
    return kcas_commit(NULL, caller, ops, 3, replies, 3);
}

/* What all accounts have, at one moment. */
static uint32_t sum(kcas_caller *caller) {
    kcas_op ops[ACCOUNTS];
    kcas_reply replies[ACCOUNTS];
    uint32_t total = 0;
    for (uint32_t i = 0; i < ACCOUNTS; i++) ops[i] = kcas_at(i, KCAS_GET, 0, 0);
    if (kcas_commit(NULL, caller, ops, ACCOUNTS, replies, ACCOUNTS) != KCAS_DONE) abort();
    for (uint32_t i = 0; i < ACCOUNTS; i++) total += replies[i].value;
    return total;
}

static void *clerk(void *arg) {
    size_t me = (size_t)arg;
    kcas_caller mine = callers[me]; /* moved here, where no other thread writes */
    uint32_t draw = (uint32_t)me + 1;
    for (int i = 0; i < MOVES; i++) {
        draw = draw * 1664525u + 1013904223u;
        uint32_t answer = move(&mine, draw >> 29, draw >> 26 & 7, draw >> 8 & 1023);
        if (answer != KCAS_DONE && answer != KCAS_LATER) abort();
        if (i % 100 == 0 && sum(&mine) != ACCOUNTS * OPENING) abort();
    }
    callers[me] = mine;
    return NULL;
}

int main(void) {
    uint32_t values[ACCOUNTS];
    pthread_t threads[THREADS];
    for (int i = 0; i < ACCOUNTS; i++) values[i] = OPENING;
    if (kcas_open(values, ACCOUNTS, callers, THREADS) != KCAS_DONE) return 1;
    for (size_t i = 0; i < THREADS; i++) pthread_create(&threads[i], NULL, clerk, (void *)i);
    for (size_t i = 0; i < THREADS; i++) pthread_join(threads[i], NULL);
    printf("%d moves; the accounts have %u\n", THREADS * MOVES, sum(&callers[0]));
    for (int i = 0; i < THREADS; i++) kcas_close(&callers[i]);
    return 0;
}
