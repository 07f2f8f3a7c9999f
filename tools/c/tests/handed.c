/* Plain memory is handed from thread to thread by a number in a queue: who takes the number sees what was written before it was put. And
 * commits as seen: jobs are squared into a table, each once, by workers that look, compute and then take. */
#include "test.h"
#include <string.h>

enum { THREADS = 4, SLOTS = 8, WORDS = 16, KEYS = 512 };
static kcas_caller callers[THREADS];
static kcas_bell bell;
static kcas_object full, empty, jobs, squares;
static int rounds;
static uint32_t slots[SLOTS][WORDS]; /* plain */
static uint32_t sums[THREADS], done, misses[THREADS];

static uint32_t take(kcas_caller *caller, kcas_object queue) {
    kcas_op op = kcas_do(queue, KCAS_DEQW, 0, 0);
    kcas_reply reply;
    CLAIM(kcas_commit_waiting(&bell, caller, &op, 1, &reply, 1) == KCAS_DONE && reply.kind == KCAS_VALUE);
    return reply.value;
}

static void give(kcas_caller *caller, kcas_object queue, uint32_t item) {
    kcas_op op = kcas_do(queue, KCAS_ENQ, item, 0);
    kcas_reply reply;
    CLAIM(kcas_commit(&bell, caller, &op, 1, &reply, 1) == KCAS_DONE && reply.kind == KCAS_UNIT);
}

/* Half of the threads fill slots, and half sum them up. */
static void *hand(void *arg) {
    size_t me = (size_t)arg;
    kcas_caller *mine = &callers[me];
    for (int i = 0; i < rounds; i++) {
        uint32_t slot = take(mine, me % 2 ? full : empty);
        CLAIM(slot < SLOTS);
        for (uint32_t k = 0; k < WORDS; k++) {
            if (me % 2) {
                CLAIM(slots[slot][k] == slots[slot][0] + k);
                sums[me] += slots[slot][k];
            } else {
                slots[slot][k] = (uint32_t)i + k;
            }
        }
        give(mine, me % 2 ? empty : full, slot);
    }
    return NULL;
}

static void *work(void *arg) {
    size_t me = (size_t)arg;
    kcas_caller *mine = &callers[me];
    for (;;) {
        kcas_op look = kcas_do(jobs, KCAS_FRONT, 0, 0);
        kcas_reply front, replies[3];
        CLAIM(kcas_commit(&bell, mine, &look, 1, &front, 1) == KCAS_DONE);
        if (front.kind == KCAS_EMPTY) return NULL;
        kcas_op act[] = { kcas_do(jobs, KCAS_DEQ, 0, 0), kcas_do(squares, KCAS_PUT, front.value, front.value * front.value), kcas_at(done, KCAS_INCR, 0, 0) };
        uint32_t answer = kcas_commit_as_seen(&bell, mine, act, 3, replies, 3);
        CLAIM(answer == KCAS_DONE || answer == KCAS_LATER);
        if (answer == KCAS_LATER) misses[me]++;
        else CLAIM(replies[0].kind == KCAS_VALUE && replies[0].value == front.value && replies[1].kind == KCAS_UNIT && replies[2].kind == KCAS_UNIT);
    }
}

static void each(void *(*run)(void *)) {
    pthread_t threads[THREADS];
    for (size_t i = 0; i < THREADS; i++) pthread_create(&threads[i], NULL, run, (void *)i);
    for (size_t i = 0; i < THREADS; i++) pthread_join(threads[i], NULL);
}

/* What is refused, and what isn't done where a value came in between: by an add, which is a try too. */
static void seen(void) {
    kcas_op get = kcas_at(done, KCAS_GET, 0, 0), many[16], set = kcas_at(done, KCAS_SET, 5, 0), other = kcas_or(set);
    kcas_reply replies[16] = { { 99, 99 } };
    uint32_t before;
    for (int i = 0; i < 16; i++) many[i] = get;
    CLAIM(kcas_commit(&bell, &callers[0], &get, 1, replies, 1) == KCAS_DONE && replies[0].value == KEYS);
    replies[0].kind = 99;
    CLAIM(kcas_commit_as_seen(&bell, &callers[0], many, 16, replies, 16) == KCAS_BAD_OPS && kcas_commit_as_seen(&bell, &callers[0], many, 2, replies, 1) == KCAS_BAD_OPS);
    CLAIM(kcas_commit_as_seen(&bell, &callers[0], &other, 1, replies, 1) == KCAS_BAD_OPS && replies[0].kind == 99);
    CLAIM(kcas_commit_add(&bell, &callers[1], done, 1, &before) == KCAS_DONE && before == KEYS);
    CLAIM(kcas_commit_as_seen(&bell, &callers[0], &set, 1, replies, 1) == KCAS_LATER && replies[0].kind == 99);
    CLAIM(kcas_commit(&bell, &callers[0], &get, 1, replies, 1) == KCAS_DONE && replies[0].value == KEYS + 1);
    CLAIM(kcas_commit_as_seen(&bell, &callers[0], many, 15, replies, 15) == KCAS_DONE && replies[14].value == KEYS + 1);
    CLAIM(kcas_commit_as_seen(&bell, &callers[0], &set, 1, replies, 1) == KCAS_DONE && replies[0].kind == KCAS_UNIT);
    CLAIM(kcas_commit(&bell, &callers[0], &get, 1, replies, 1) == KCAS_DONE && replies[0].value == 5);
}

int main(int argc, char **argv) {
    static uint32_t values[8192];
    uint32_t end = 0, missed = 0, sum = 0;
    rounds = times(argc, argv, 20000);
    full = kcas_queue(end, SLOTS);
    empty = kcas_queue(end += kcas_cells(&full), SLOTS);
    jobs = kcas_queue(end += kcas_cells(&empty), KEYS);
    squares = kcas_table(end += kcas_cells(&jobs), KEYS, KEYS);
    done = end += kcas_cells(&squares);
    CLAIM(end < 8192 && kcas_opening(&squares, values + squares.base, 8192 - squares.base) == KCAS_DONE);
    CLAIM(kcas_open(values, 8192, callers, THREADS) == KCAS_DONE);
    for (uint32_t i = 0; i < SLOTS; i++) give(&callers[0], empty, i);
    for (uint32_t i = 0; i < KEYS; i++) give(&callers[0], jobs, i);
    each(hand);
    for (int i = 0; i < rounds; i++) sum += (uint32_t)i * WORDS + WORDS * (WORDS - 1) / 2;
    CLAIM(sums[1] + sums[3] == 2 * sum);
    each(work);
    for (uint32_t i = 0; i < KEYS; i++) {
        kcas_op find = kcas_do(squares, KCAS_FIND, i, 0);
        kcas_reply reply;
        CLAIM(kcas_commit(NULL, &callers[0], &find, 1, &reply, 1) == KCAS_DONE && reply.kind == KCAS_VALUE && reply.value == i * i);
    }
    seen();
    for (size_t i = 0; i < THREADS; i++) missed += misses[i];
    printf("%u looks overtaken\n", missed);
    for (size_t i = 0; i < THREADS; i++) CLAIM(kcas_close(&callers[i]) == KCAS_DONE);
    return 0;
}
