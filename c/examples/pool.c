/* Two workers take jobs from two queues, the urgent one first. Each takes a job, keeps its result in a cache and counts it, in one
 * commit, and an auditor sees at every hundred that no job is lost on the way. */
#include <kcas.h>
#include <pthread.h>
#include <stdio.h>
#include <stdlib.h>

enum { JOBS = 5000, WORKERS = 2, FOREMAN = WORKERS, AUDITOR, CALLERS };
enum { URGENT, PLAIN, STOP };

static kcas_bell bell;
static kcas_caller callers[CALLERS];
static kcas_object queues[2], results;
static uint32_t entered, done; /* their locations */

/* Where a queue keeps the number of its items: the second of its cells. */
static uint32_t length_of(kcas_object queue) { return queue.base + 1; }

/* Waits until all of it can be done. */
static void commit(kcas_caller *caller, const kcas_op *ops, size_t count, kcas_reply *replies) {
    uint32_t answer = kcas_commit_waiting(&bell, caller, ops, count, replies, count);
    if (answer != KCAS_DONE) fprintf(stderr, "%s\n", kcas_answer_name(answer)), abort();
}

static void *work(void *at) {
    kcas_caller mine = *(kcas_caller *)at; /* moved here, where no other thread writes */
    for (;;) {
        kcas_op look[] = {
            kcas_say(URGENT), kcas_check(length_of(queues[URGENT]), KCAS_GT, 0), kcas_do(queues[URGENT], KCAS_FRONT, 0, 0),
            kcas_or(kcas_say(PLAIN)), kcas_check(length_of(queues[PLAIN]), KCAS_GT, 0), kcas_do(queues[PLAIN], KCAS_FRONT, 0, 0),
            kcas_or(kcas_say(STOP)), kcas_check(done, KCAS_EQ, JOBS),
        };
        kcas_reply seen[8];
        commit(&mine, look, 8, seen);
        uint32_t which = seen[0].value, job = seen[2].value;
        if (which == STOP) break;
        kcas_op take[] = {
            kcas_do(queues[which], KCAS_DEQ, 0, 0),
            kcas_do(results, KCAS_CPUT, job, job * job),
            kcas_at(done, KCAS_INCR, 0, 0),
        };
        /* Where the other worker was faster, it looks again. */
        uint32_t answer = kcas_commit_as_seen(&bell, &mine, take, 3, seen, 3);
        if (answer != KCAS_DONE && answer != KCAS_LATER) abort();
    }
    *(kcas_caller *)at = mine;
    return NULL;
}

static void *audit(void *at) {
    for (uint32_t next = 100; next <= JOBS; next += 100) {
        kcas_op look[] = {
            kcas_check(done, KCAS_GE, next),
            kcas_at(entered, KCAS_GET, 0, 0),
            kcas_at(done, KCAS_GET, 0, 0),
            kcas_do(queues[URGENT], KCAS_LEN, 0, 0),
            kcas_do(queues[PLAIN], KCAS_LEN, 0, 0),
        };
        kcas_reply now[5];
        commit(at, look, 5, now);
        if (now[1].value != now[2].value + now[3].value + now[4].value) abort();
    }
    return NULL;
}

/* Enters a job where its queue has room. */
static void enter(kcas_caller *caller, kcas_object queue, uint32_t job) {
    kcas_op ops[] = {
        kcas_check(length_of(queue), KCAS_LT, queue.capacity),
        kcas_do(queue, KCAS_ENQ, job, 0),
        kcas_at(entered, KCAS_INCR, 0, 0),
    };
    kcas_reply replies[3];
    commit(caller, ops, 3, replies);
}

int main(void) {
    uint32_t values[256] = { 0 }, end = 0;
    pthread_t threads[CALLERS];
    queues[URGENT] = kcas_queue(0, 8);
    queues[PLAIN] = kcas_queue(0, 32);
    results = kcas_cache(0, 8, 16);
    kcas_object *laid[] = { &queues[URGENT], &queues[PLAIN], &results };
    for (int i = 0; i < 3; i++) {
        if (kcas_lay(laid[i], values, 256, &end) != KCAS_DONE) return 1;
    }
    entered = end;
    done = end + 1;
    if (kcas_open(values, 256, callers, CALLERS) != KCAS_DONE) return 1;
    for (int i = 0; i < WORKERS; i++) pthread_create(&threads[i], NULL, work, &callers[i]);
    pthread_create(&threads[AUDITOR], NULL, audit, &callers[AUDITOR]);
    for (uint32_t job = 0; job < JOBS; job++) enter(&callers[FOREMAN], queues[job % 10 ? PLAIN : URGENT], job);
    for (int i = 0; i < CALLERS; i++) {
        if (i != FOREMAN) pthread_join(threads[i], NULL);
    }
    kcas_op last[] = { kcas_at(done, KCAS_GET, 0, 0), kcas_do(results, KCAS_LEN, 0, 0) };
    kcas_reply replies[2];
    commit(&callers[FOREMAN], last, 2, replies);
    printf("%u jobs done, the last %u results are kept\n", replies[0].value, replies[1].value);
    for (int i = 0; i < CALLERS; i++) kcas_close(&callers[i]);
    return 0;
}
