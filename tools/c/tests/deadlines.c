/* A commit waits no longer than to its deadline: behind it KCAS_LATER, with nothing done; before it, as soon as there is something. Who left at a
 * deadline may commit, and wait again. */
#include "test.h"

static kcas_caller callers[2];
static kcas_bell bell;
static int rounds;

static double seconds_to(const struct timespec *then) {
    struct timespec now = kcas_now();
    return (double)(then->tv_sec - now.tv_sec) + (double)(then->tv_nsec - now.tv_nsec) * 1e-9;
}

static void ends(void) {
    kcas_op never = kcas_check(0, KCAS_EQ, 99), now = kcas_at(0, KCAS_GET, 0, 0);
    kcas_reply reply = { 99, 99 };
    struct timespec past = { 0, 0 }, soon;
    CLAIM(kcas_commit_until(&bell, &callers[0], &never, 1, &reply, 1, &past) == KCAS_LATER && reply.kind == 99);
    for (uint32_t i = 0; i < 20; i++) {
        soon = kcas_in(i);
        CLAIM(kcas_commit_until(&bell, &callers[0], &never, 1, &reply, 1, &soon) == KCAS_LATER && reply.kind == 99);
        CLAIM(seconds_to(&soon) <= 0 && seconds_to(&soon) > -10);
    }
    CLAIM(kcas_commit_until(&bell, &callers[0], &now, 1, &reply, 1, &past) == KCAS_DONE && reply.kind == KCAS_VALUE);
}

/* Puts what the other one waits for, a little before its deadline or behind it. */
static void *putter(void *arg) {
    kcas_op take = kcas_at(1, KCAS_DECR, 0, 0), ops[] = { kcas_check(1, KCAS_GT, 0), take };
    kcas_reply replies[2];
    (void)arg;
    for (int i = 0; i < rounds; i++) {
        struct timespec until = kcas_in(60000);
        CLAIM(kcas_commit_until(&bell, &callers[1], ops, 2, replies, 2, &until) == KCAS_DONE);
        kcas_op put = kcas_at(2, KCAS_INCR, 0, 0);
        CLAIM(kcas_commit(&bell, &callers[1], &put, 1, replies, 1) == KCAS_DONE);
    }
    return NULL;
}

static uint32_t meets(void) {
    pthread_t thread;
    uint32_t late = 0;
    kcas_op ask = kcas_at(1, KCAS_INCR, 0, 0), ops[] = { kcas_check(2, KCAS_GT, 0), kcas_at(2, KCAS_DECR, 0, 0) };
    kcas_reply replies[2];
    pthread_create(&thread, NULL, putter, NULL);
    for (int i = 0; i < rounds; i++) {
        struct timespec until = kcas_now();
        CLAIM(kcas_commit(&bell, &callers[0], &ask, 1, replies, 1) == KCAS_DONE);
        until.tv_nsec += until.tv_nsec < 999990000 ? i % 10 * 1000 : 0;
        uint32_t answer = kcas_commit_until(&bell, &callers[0], ops, 2, replies, 2, &until);
        while (answer == KCAS_LATER) {
            late++;
            until = kcas_in(5000);
            answer = kcas_commit_until(&bell, &callers[0], ops, 2, replies, 2, &until);
            CLAIM(seconds_to(&until) > 0);
        }
        CLAIM(answer == KCAS_DONE);
    }
    pthread_join(thread, NULL);
    return late;
}

int main(int argc, char **argv) {
    uint32_t values[3] = { 0 };
    struct timespec a = kcas_now(), b = kcas_in(1999);
    rounds = times(argc, argv, 20000);
    CLAIM(seconds_to(&b) > 1 && seconds_to(&b) <= 1.999 && !kcas_is_past(&b) && kcas_is_past(&a) && !kcas_is_past(NULL) && b.tv_nsec < 1000000000);
    CLAIM(kcas_open(values, 3, callers, 2) == KCAS_DONE);
    ends();
    printf("%u deadlines came first\n", meets());
    CLAIM(kcas_close(&callers[0]) == KCAS_DONE && kcas_close(&callers[1]) == KCAS_DONE);
    return 0;
}
