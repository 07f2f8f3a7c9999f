/* Views: what they answer, that they leave nothing, that what puts is refused; a sum that stands at one moment while threads move amounts; how looks end
 * whose views are all in vain; and how much of a life is gone. */
#include "test.h"

enum { THREADS = 4, ACCOUNTS = 8, AMOUNT = 1000 };
static kcas_caller callers[THREADS];
static kcas_bell bell;
static kcas_object queue, cache;
static kcas_reply replies[KCAS_MOST_OPS];
static int rounds;
static uint32_t changed[THREADS];

/* While it isn't 0, kcas_view answers this and does nothing (-Wl,--wrap=kcas_view); how often is counted. */
static uint32_t vain, views;
uint32_t __real_kcas_view(kcas_caller *caller, const kcas_op *ops, size_t count, kcas_reply *replies, size_t room);
uint32_t __wrap_kcas_view(kcas_caller *caller, const kcas_op *ops, size_t count, kcas_reply *replies, size_t room) {
    if (vain == 0) return __real_kcas_view(caller, ops, count, replies, room);
    views++;
    return vain;
}

static uint32_t view(const kcas_op *ops, size_t n) { return kcas_view(&callers[0], ops, n, replies, KCAS_MOST_OPS); }
static uint32_t view_one(kcas_op op) { return view(&op, 1); }
static uint32_t version_of(uint32_t location) {
    uint32_t value, version;
    CLAIM(kcas_read(&callers[0], location, &value, &version) == KCAS_DONE);
    return version;
}

static void answers(void) {
    kcas_op get = kcas_at(0, KCAS_GET, 0, 0), all[16], two[] = { get, kcas_check(1, KCAS_EQ, 7), kcas_or(kcas_at(1, KCAS_GET, 0, 0)), kcas_at(0, KCAS_GET, 0, 0) };
    kcas_caller none = KCAS_CALLER_INIT;
    kcas_seen seen[4];
    for (size_t i = 0; i < 16; i++) all[i] = get;
    CLAIM(view(all, 16) == KCAS_DONE && replies[15].kind == KCAS_VALUE && replies[15].value == AMOUNT);
    CLAIM(view(two, 4) == KCAS_DONE && replies[0].value == AMOUNT && replies[1].value == AMOUNT && replies[2].kind == KCAS_NONE && replies[3].kind == KCAS_NONE);
    CLAIM(kcas_reads(&callers[0], seen, 4) == 2 && seen[0].location == 0 && seen[1].location == 1 && seen[1].value == AMOUNT);
    replies[0].kind = 99;
    CLAIM(view(two, 2) == KCAS_LATER && view(all, 0) == KCAS_BAD_OPS && view_one(kcas_at(60000, KCAS_GET, 0, 0)) == KCAS_BAD_OPS && view_one(kcas_or(get)) == KCAS_BAD_OPS);
    CLAIM(kcas_view(&callers[0], all, 2, replies, 1) == KCAS_BAD_OPS && kcas_view(&none, &get, 1, replies, 1) == KCAS_CLOSED && replies[0].kind == 99);
    CLAIM(view_one(kcas_at(0, KCAS_INCR, 0, 0)) == KCAS_PUTS && view_one(kcas_at(0, KCAS_SET, AMOUNT, 0)) == KCAS_PUTS && view_one(kcas_do(cache, KCAS_CPUT, 1, 1)) == KCAS_PUTS);
    CLAIM(view_one(kcas_do(queue, KCAS_ENQ, 1, 0)) == KCAS_PUTS && view_one(kcas_do(queue, KCAS_DEQ, 0, 0)) == KCAS_DONE && replies[0].kind == KCAS_EMPTY);
    CLAIM(view_one(kcas_at(0, KCAS_CAS, 5, 6)) == KCAS_DONE && replies[0].kind == KCAS_BOOL && replies[0].value == 0 && view_one(kcas_at(0, KCAS_CAS, AMOUNT, 6)) == KCAS_PUTS);
    CLAIM(view_one(kcas_do(queue, KCAS_DEQW, 0, 0)) == KCAS_LATER && version_of(0) == 0 && version_of(queue.base) == 0);
    /* One may hang on what a view read, and is told of a change. */
    CLAIM(kcas_hang(&callers[0]) == KCAS_GOING && view_one(get) == KCAS_NOT_NOW);
    while (kcas_hang_step(&callers[0]) == KCAS_GOING) {}
    CLAIM(kcas_signalled(&callers[0]) == KCAS_QUIET);
    kcas_op put = kcas_do(queue, KCAS_ENQ, 5, 0), take = kcas_do(queue, KCAS_DEQ, 0, 0);
    uint64_t wakes = 0;
    CLAIM(kcas_try(&callers[1], &put, 1, replies, 1, &wakes) == KCAS_DONE && wakes == 1 && kcas_signalled(&callers[0]) == KCAS_SIGNALLED);
    CLAIM(kcas_leave(&callers[0]) == KCAS_LEAVING);
    while (kcas_hang_step(&callers[0]) == KCAS_LEAVING) {}
    CLAIM(view_one(kcas_do(queue, KCAS_FRONT, 0, 0)) == KCAS_DONE && replies[0].value == 5 && view_one(take) == KCAS_PUTS);
    CLAIM(kcas_look(&bell, &callers[0], &take, 1, replies, 1) == KCAS_PUTS && kcas_look(&bell, &callers[0], all, 16, replies, 16) == KCAS_DONE);
}

static uint32_t look(const kcas_op *ops, size_t n) {
    views = 0;
    replies[0].kind = 99;
    return kcas_look(&bell, &callers[0], ops, n, replies, KCAS_MOST_OPS);
}

/* What only reads is committed behind eight views in vain; what may put ends behind 64. */
static void in_vain(void) {
    const uint32_t reads[] = { KCAS_FRONT, KCAS_LEN }, may_put[] = { KCAS_DEQ, KCAS_DEQW, KCAS_ENQW }, puts = version_of(queue.base + 1);
    for (vain = KCAS_BUSY; vain; vain = vain == KCAS_BUSY ? KCAS_CHANGED : 0) {
        for (size_t i = 0; i < 3; i++) {
            kcas_op ops[] = { kcas_at(0, KCAS_GET, 0, 0), kcas_do(queue, i < 2 ? reads[i] : KCAS_LEN, 0, 0), kcas_check(0, KCAS_EQ, 77), kcas_do(queue, may_put[i], 0, 0) };
            CLAIM(look(ops, 2) == KCAS_DONE && views == 8 && replies[0].value == AMOUNT && look(ops, 3) == KCAS_LATER && views == 8);
            ops[2] = ops[3];
            CLAIM(look(ops, 3) == KCAS_CHANGED && views == 64 && replies[0].kind == 99);
        }
    }
    CLAIM(version_of(queue.base + 1) == puts && version_of(0) == 0);
}

static void life(void) {
    kcas_caller none = KCAS_CALLER_INIT;
    kcas_op never = kcas_check(0, KCAS_LT, 0);
    uint32_t gone = 99;
    CLAIM(kcas_life(&none, 0, 1, &gone) == KCAS_CLOSED && kcas_life(&callers[0], 256, 1, &gone) == KCAS_BAD_OPS && kcas_life(&callers[0], 250, 7, &gone) == KCAS_BAD_OPS);
    CLAIM(kcas_life(&callers[0], UINT32_MAX, 2, &gone) == KCAS_BAD_OPS && kcas_life(&callers[0], 0, UINT32_MAX, &gone) == KCAS_BAD_OPS && kcas_life(&callers[0], 0, 0, &gone) == KCAS_BAD_OPS);
    CLAIM(view_one(never) == KCAS_LATER && kcas_hang(&callers[0]) == KCAS_GOING);
    while (kcas_hang_step(&callers[0]) == KCAS_GOING) {}
    CLAIM(kcas_life(&callers[0], 0, 1, &gone) == KCAS_NOT_NOW && gone == 99 && kcas_leave(&callers[0]) == KCAS_LEAVING);
    while (kcas_hang_step(&callers[0]) == KCAS_LEAVING) {}
    CLAIM(kcas_life(&callers[0], 0, ACCOUNTS, &gone) == KCAS_DONE && gone >= (uint32_t)rounds / 2);
    CLAIM(kcas_life(&callers[0], cache.base, 1, &gone) == KCAS_DONE && gone == 0 && kcas_life(&callers[0], 0, 256, &gone) == KCAS_DONE && gone >= (uint32_t)rounds / 2);
}

/* Moves amounts, and sees the sum of all between. */
static void *move(void *arg) {
    size_t me = (size_t)arg;
    uint32_t state = (uint32_t)me + 1;
    for (int i = 0; i < rounds; i++) {
        uint32_t from = drawn(&state) >> 16, to = drawn(&state) >> 16, amount = drawn(&state) >> 28, all = 0;
        kcas_op ops[] = { kcas_at(from % ACCOUNTS, KCAS_ADD, -amount, 0), kcas_at(to % ACCOUNTS, KCAS_ADD, amount, 0) }, look[ACCOUNTS];
        kcas_reply told[ACCOUNTS];
        CLAIM(kcas_commit(&bell, &callers[me], ops, 2, told, 2) == KCAS_DONE);
        for (uint32_t k = 0; k < ACCOUNTS; k++) look[k] = kcas_at(k, KCAS_GET, 0, 0);
        uint32_t answer = kcas_view(&callers[me], look, ACCOUNTS, told, ACCOUNTS);
        CLAIM(answer == KCAS_DONE || answer == KCAS_CHANGED || answer == KCAS_BUSY);
        if (answer != KCAS_DONE) {
            changed[me]++;
            CLAIM(kcas_look(&bell, &callers[me], look, ACCOUNTS, told, ACCOUNTS) == KCAS_DONE);
        }
        for (uint32_t k = 0; k < ACCOUNTS; k++) all += told[k].value;
        CLAIM(all == ACCOUNTS * AMOUNT);
    }
    return NULL;
}

int main(int argc, char **argv) {
    uint32_t values[256] = { 0 }, again = 0;
    pthread_t threads[THREADS];
    rounds = times(argc, argv, 50000);
    for (uint32_t i = 0; i < ACCOUNTS; i++) values[i] = AMOUNT;
    queue = kcas_queue(ACCOUNTS, 4);
    cache = kcas_cache(queue.base + kcas_cells(&queue), 4, 4);
    CLAIM(kcas_opening(&cache, values + cache.base, 256 - cache.base) == KCAS_DONE);
    CLAIM(kcas_open(values, 256, callers, THREADS) == KCAS_DONE);
    answers();
    in_vain();
    for (size_t i = 0; i < THREADS; i++) pthread_create(&threads[i], NULL, move, (void *)i);
    for (size_t i = 0; i < THREADS; i++) pthread_join(threads[i], NULL), again += changed[i];
    printf("%u views changed\n", again);
    life();
    for (size_t i = 0; i < THREADS; i++) CLAIM(kcas_close(&callers[i]) == KCAS_DONE);
    return 0;
}
