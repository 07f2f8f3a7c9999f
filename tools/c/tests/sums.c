/* The sum of sixteen locations stays under moves by four threads, at each look at one moment; two of them move by a body
 * that reads and writes. A handle goes from thread to thread by a mutex meanwhile. */
#include "test.h"

enum { LOCATIONS = 16, THREADS = 4, OPENING = 100 };
static kcas_caller callers[THREADS + 1];
static kcas_bell bell;
static int moves;
static pthread_mutex_t shared = PTHREAD_MUTEX_INITIALIZER;

typedef struct step {
    uint32_t from, to, amount;
} step;

static uint32_t body(kcas_log *log, void *with) {
    const step *s = with;
    uint32_t has = kcas_read_in(log, s->from);
    if (has < s->amount) return KCAS_STOP;
    kcas_write(log, s->from, has - s->amount);
    kcas_write(log, s->to, kcas_read_in(log, s->to) + s->amount);
    return KCAS_COMMIT;
}

static uint32_t sum(kcas_caller *caller) {
    kcas_op ops[LOCATIONS];
    kcas_reply replies[LOCATIONS];
    uint32_t total = 0;
    for (uint32_t i = 0; i < LOCATIONS; i++) ops[i] = kcas_at(i, KCAS_GET, 0, 0);
    CLAIM(kcas_commit(&bell, caller, ops, LOCATIONS, replies, LOCATIONS) == KCAS_DONE);
    for (uint32_t i = 0; i < LOCATIONS; i++) {
        CLAIM(replies[i].kind == KCAS_VALUE && replies[i].value <= LOCATIONS * OPENING);
        total += replies[i].value;
    }
    return total;
}

static void *mover(void *arg) {
    size_t me = (size_t)arg;
    uint32_t state = (uint32_t)me * 77 + 5;
    for (int i = 0; i < moves; i++) {
        step s = { drawn(&state) >> 28, drawn(&state) >> 28, drawn(&state) >> 26 };
        uint32_t answer;
        if (me < THREADS / 2) {
            answer = kcas_run(&bell, &callers[me], body, &s);
        } else {
            kcas_op ops[] = { kcas_check(s.from, KCAS_GE, s.amount), kcas_at(s.from, KCAS_ADD, -s.amount, 0), kcas_at(s.to, KCAS_ADD, s.amount, 0) };
            kcas_reply replies[3];
            answer = kcas_commit(&bell, &callers[me], ops, 3, replies, 3);
        }
        CLAIM(answer == KCAS_DONE || answer == KCAS_LATER);
        if (i % 64 == 0) CLAIM(sum(&callers[me]) == LOCATIONS * OPENING);
        if (i % 256 == 0) {
            pthread_mutex_lock(&shared);
            CLAIM(sum(&callers[THREADS]) == LOCATIONS * OPENING);
            pthread_mutex_unlock(&shared);
        }
    }
    return NULL;
}

int main(int argc, char **argv) {
    uint32_t values[LOCATIONS];
    pthread_t threads[THREADS];
    moves = times(argc, argv, 20000);
    for (int i = 0; i < LOCATIONS; i++) values[i] = OPENING;
    CLAIM(kcas_open(values, LOCATIONS, callers, THREADS + 1) == KCAS_DONE);
    for (size_t i = 0; i < THREADS; i++) pthread_create(&threads[i], NULL, mover, (void *)i);
    for (size_t i = 0; i < THREADS; i++) pthread_join(threads[i], NULL);
    CLAIM(sum(&callers[THREADS]) == LOCATIONS * OPENING);
    for (int i = 0; i <= THREADS; i++) CLAIM(kcas_close(&callers[i]) == KCAS_DONE);
    return 0;
}
