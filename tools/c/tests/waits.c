/* Two producers put into a queue of two places, and two consumers take from it: all wait often, and no wake is lost. Without a
 * deadline, and by a body that waits; then with deadlines, which often come first. */
#include "test.h"

enum { THREADS = 4 };
static kcas_caller callers[THREADS];
static kcas_bell *bell;
static int rounds, way;
static kcas_object queue, sent;
static uint32_t taken[THREADS], waits[THREADS];

static uint32_t waiting(size_t me, const kcas_op *ops, size_t count, kcas_reply *replies) {
    kcas_caller *caller = &callers[me];
    uint32_t answer = kcas_commit(bell, caller, ops, count, replies, count);
    if (answer != KCAS_LATER) return answer;
    waits[me]++;
    if (way == 0) return kcas_commit_waiting(bell, caller, ops, count, replies, count);
    while (answer == KCAS_LATER) {
        struct timespec until = kcas_in(waits[me] % 3);
        answer = kcas_commit_until(bell, caller, ops, count, replies, count, &until);
    }
    return answer;
}

/* Enters where there is room: a check of the number of items, and the item. */
static void *producer(void *arg) {
    size_t me = (size_t)arg;
    for (int i = 0; i < rounds; i++) {
        kcas_op ops[] = { kcas_check(queue.base + 1, KCAS_LT, queue.capacity), kcas_do(queue, KCAS_ENQ, i, 0) };
        kcas_reply replies[2];
        CLAIM(waiting(me, ops, 2, replies) == KCAS_DONE && replies[1].kind == KCAS_UNIT);
    }
    return NULL;
}

static uint32_t take_one(kcas_log *log, void *with) {
    uint32_t n = kcas_read_in(log, *(uint32_t *)with);
    if (n == 0) return KCAS_WAIT;
    kcas_write(log, *(uint32_t *)with, n - 1);
    return KCAS_COMMIT;
}

static void *consumer(void *arg) {
    size_t me = (size_t)arg;
    uint32_t count = sent.base;
    for (int i = 0; i < rounds; i++) {
        kcas_op ops[] = { kcas_do(queue, KCAS_DEQW, 0, 0), kcas_do(sent, KCAS_INCR, 0, 0) };
        kcas_reply replies[2];
        CLAIM(waiting(me, ops, 2, replies) == KCAS_DONE && replies[0].kind == KCAS_VALUE);
        taken[me] += replies[0].value;
        if (way == 0) CLAIM(kcas_run(bell, &callers[me], take_one, &count) == KCAS_DONE);
    }
    return NULL;
}

static void run(void) {
    uint32_t values[16] = { 0 }, all = 0;
    pthread_t threads[THREADS];
    queue = kcas_queue(0, 2);
    sent = kcas_loc(kcas_cells(&queue));
    CLAIM(kcas_opening(&queue, values, 16) == KCAS_DONE);
    CLAIM(kcas_open(values, 16, callers, THREADS) == KCAS_DONE);
    bell = calloc(1, sizeof *bell);
    CLAIM(bell);
    for (size_t i = 0; i < THREADS; i++) taken[i] = waits[i] = 0;
    for (size_t i = 0; i < THREADS; i++) pthread_create(&threads[i], NULL, i < THREADS / 2 ? producer : consumer, (void *)i);
    for (size_t i = 0; i < THREADS; i++) pthread_join(threads[i], NULL);
    for (size_t i = 0; i < THREADS; i++) all += taken[i];
    CLAIM(all == (uint32_t)rounds * (uint32_t)(rounds - 1));
    for (size_t i = 0; i < THREADS; i++) CLAIM(kcas_close(&callers[i]) == KCAS_DONE);
    printf("%s: %u waits\n", way == 0 ? "without deadlines" : "with deadlines", waits[0] + waits[1] + waits[2] + waits[3]);
    free(bell);
}

int main(int argc, char **argv) {
    rounds = times(argc, argv, 50000);
    for (way = 0; way < 2; way++) run();
    return 0;
}
