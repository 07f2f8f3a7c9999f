/* Operations that are fed what others replied: every verb that takes a number, what replied none, alternatives, and what names no operation before it;
 * verbs that wait for room; a pool of jobs in one array of operations, by several threads. */
#include "test.h"

enum { THREADS = 4, JOBS = 2000 };
static kcas_caller callers[THREADS];
static kcas_bell bell;
static kcas_object jobs, results, table, grown, stack;
static uint32_t count, sum, end;
static kcas_reply replies[KCAS_MOST_OPS];
static uint32_t values[8192];
static uint32_t taken[THREADS];

static uint32_t done(const kcas_op *ops, size_t n) { return kcas_commit(&bell, &callers[0], ops, n, replies, KCAS_MOST_OPS); }
static kcas_reply one(kcas_op op) {
    CLAIM(done(&op, 1) == KCAS_DONE);
    return replies[0];
}
static int is(kcas_reply reply, uint32_t kind, uint32_t value) { return reply.kind == kind && reply.value == value; }

/* A number goes from any operation to any other that takes one, as its first number, its second, or both. */
static void numbers(void) {
    kcas_op ops[] = {
        kcas_say(40),
        kcas_fed_a(kcas_at(count, KCAS_SET, 0, 0), 0),
        kcas_at(count, KCAS_GET, 0, 0),
        kcas_fed_a(kcas_at(count, KCAS_ADD, 0, 0), 2),
        kcas_fed_b(kcas_at(count, KCAS_CAS, 80, 0), 3),
        kcas_fed_b(kcas_at(count, KCAS_UPDATE, KCAS_FUN_MAX, 0), 0),
        kcas_fed_b(kcas_check(count, KCAS_EQ, 0), 5),
        kcas_fed_a(kcas_do(table, KCAS_PUT, 0, 7), 0),
        kcas_fed_a(kcas_do(table, KCAS_FIND, 0, 0), 0),
        kcas_fed_b(kcas_fed_a(kcas_do(grown, KCAS_PUTW, 0, 0), 8), 0),
        kcas_fed_a(kcas_do(grown, KCAS_DEL, 0, 0), 8),
        kcas_fed_a(kcas_do(jobs, KCAS_ENQW, 0, 0), 10),
        kcas_do(jobs, KCAS_DEQW, 0, 0),
        kcas_fed_a(kcas_do(stack, KCAS_PUSHW, 0, 0), 12),
        kcas_do(stack, KCAS_POPW, 0, 0),
        kcas_fed_a(kcas_say(0), 14),
    };
    CLAIM(done(ops, 16) == KCAS_DONE);
    CLAIM(is(replies[1], KCAS_UNIT, 0) && is(replies[2], KCAS_VALUE, 40) && is(replies[3], KCAS_VALUE, 40) && is(replies[4], KCAS_BOOL, 1));
    CLAIM(is(replies[5], KCAS_VALUE, 40) && is(replies[6], KCAS_UNIT, 0) && is(replies[8], KCAS_VALUE, 7) && is(replies[9], KCAS_UNIT, 0));
    CLAIM(is(replies[10], KCAS_VALUE, 40) && is(replies[12], KCAS_VALUE, 40) && is(replies[14], KCAS_VALUE, 40) && is(replies[15], KCAS_VALUE, 40));
    CLAIM(is(one(kcas_at(count, KCAS_XCHG, 0, 0)), KCAS_VALUE, 40) && is(one(kcas_do(table, KCAS_DEL, 40, 0)), KCAS_VALUE, 7));
}

/* What is fed what is no number does nothing, and so does what that would have fed; the others are done. */
static void nothing(void) {
    kcas_op ops[] = {
        kcas_do(jobs, KCAS_DEQ, 0, 0), kcas_fed_a(kcas_at(count, KCAS_ADD, 0, 0), 0), kcas_fed_a(kcas_do(table, KCAS_PUT, 0, 1), 1), kcas_at(count, KCAS_INCR, 0, 0),
        kcas_fed_b(kcas_do(table, KCAS_PUT, 5, 0), 3),
    };
    CLAIM(done(ops, 5) == KCAS_DONE);
    CLAIM(is(replies[0], KCAS_EMPTY, 0) && is(replies[1], KCAS_EMPTY, 0) && is(replies[2], KCAS_EMPTY, 0) && is(replies[3], KCAS_UNIT, 0) && is(replies[4], KCAS_EMPTY, 0));
    CLAIM(is(one(kcas_at(count, KCAS_XCHG, 0, 0)), KCAS_VALUE, 1) && is(one(kcas_do(table, KCAS_LEN, 0, 0)), KCAS_VALUE, 0));
}

/* Each alternative counts its own operations. */
static void alternatives(void) {
    kcas_op ops[] = {
        kcas_say(1), kcas_do(jobs, KCAS_DEQW, 0, 0), kcas_fed_a(kcas_at(sum, KCAS_ADD, 0, 0), 1),
        kcas_or(kcas_say(9)), kcas_fed_a(kcas_at(sum, KCAS_ADD, 0, 0), 0),
    };
    CLAIM(done(ops, 5) == KCAS_DONE && is(replies[0], KCAS_VALUE, 9) && is(replies[1], KCAS_VALUE, 0) && replies[2].kind == KCAS_NONE);
    one(kcas_do(jobs, KCAS_ENQ, 30, 0));
    CLAIM(done(ops, 5) == KCAS_DONE && is(replies[0], KCAS_VALUE, 1) && is(replies[1], KCAS_VALUE, 30) && is(replies[2], KCAS_VALUE, 9));
    CLAIM(is(one(kcas_at(sum, KCAS_XCHG, 0, 0)), KCAS_VALUE, 39));
}

static size_t wrong(const kcas_op *ops, size_t n) {
    uint64_t wakes = 0;
    CLAIM(done(ops, n) == KCAS_BAD_OPS && kcas_view(&callers[0], ops, n, replies, KCAS_MOST_OPS) == KCAS_BAD_OPS);
    return kcas_bad_op(&callers[0], ops, n, &wakes);
}

/* What names no operation before it in its alternative is refused, and what takes no number; it is told which. */
static void refused(void) {
    kcas_op get = kcas_at(count, KCAS_GET, 0, 0), add = kcas_at(count, KCAS_ADD, 0, 0), five = kcas_at(count, KCAS_ADD, 0, 0), ops[4] = { get, get, get, get };
    const uint32_t fixed[] = { KCAS_SWAP, KCAS_UPDATE, KCAS_MODIFY, KCAS_CHECK };
    for (uint32_t at = 0; at < 4; at++) {
        for (uint32_t from = 0; from < 6; from++) {
            ops[at] = kcas_fed_a(add, from);
            CLAIM(from < at ? done(ops, 4) == KCAS_DONE : wrong(ops, 4) == at);
            ops[at] = kcas_fed_b(add, from);
            CLAIM(from < at ? done(ops, 4) == KCAS_DONE : wrong(ops, 4) == at);
            ops[at] = kcas_fed_b(kcas_fed_a(add, 0), from);
            CLAIM(from < at ? done(ops, 4) == KCAS_DONE : wrong(ops, 4) == at);
        }
        ops[at] = get;
    }
    for (size_t i = 0; i < 4; i++) {
        ops[1] = kcas_fed_a(kcas_at(count, fixed[i], 0, 1), 0);
        CLAIM(wrong(ops, 2) == 1);
        ops[1] = kcas_fed_b(kcas_fed_a(kcas_at(count, fixed[i], 0, 1), 0), 0);
        CLAIM(wrong(ops, 2) == 1);
    }
    ops[1] = kcas_or(get);
    ops[2] = kcas_fed_a(add, 0);
    CLAIM(done(ops, 3) == KCAS_DONE);
    ops[2] = kcas_fed_a(add, 1);
    CLAIM(wrong(ops, 3) == 2);
    five.mark = 5;
    ops[2] = five;
    CLAIM(wrong(ops, 3) == 2);
    one(kcas_at(count, KCAS_SET, 0, 0));
}

/* An operation that begins an alternative isn't fed, whichever mark came first. */
static void begins(void) {
    kcas_op get = kcas_at(count, KCAS_GET, 0, 0), add = kcas_at(count, KCAS_ADD, 0, 0), ops[4] = { get, get, get, get };
    const kcas_op neither[] = {
        kcas_or(kcas_fed_a(add, 0)), kcas_fed_a(kcas_or(add), 0), kcas_or(kcas_fed_b(add, 0)), kcas_fed_b(kcas_or(add), 0), kcas_or(kcas_fed_b(kcas_fed_a(add, 0), 0)),
        kcas_fed_b(kcas_or(kcas_fed_a(add, 0)), 0), kcas_fed_b(kcas_fed_a(kcas_or(add), 0), 0), kcas_or(kcas_fed_a(kcas_or(add), 0)), kcas_or(kcas_fed_a(kcas_say(1), 0)),
    };
    for (size_t i = 0; i < sizeof neither / sizeof neither[0]; i++) {
        CLAIM(neither[i].mark == KCAS_NO_MARK);
        for (size_t at = 0; at < 4; at++) {
            ops[at] = neither[i];
            CLAIM(wrong(ops, 4) == at && kcas_look(&bell, &callers[0], ops, 4, replies, KCAS_MOST_OPS) == KCAS_BAD_OPS);
            CLAIM(kcas_commit_as_seen(&bell, &callers[0], ops, 4, replies, KCAS_MOST_OPS) == KCAS_BAD_OPS);
            ops[at] = get;
        }
    }
    /* What says the same twice says it once. */
    CLAIM(kcas_or(kcas_or(add)).mark == KCAS_OR && kcas_fed_a(kcas_fed_a(add, 0), 0).mark == KCAS_FED_A && kcas_fed_b(kcas_fed_b(add, 0), 0).mark == KCAS_FED_B);
    CLAIM(kcas_fed_a(kcas_fed_b(add, 0), 0).mark == KCAS_FED_BOTH && kcas_fed_a(kcas_fed_a(kcas_fed_b(add, 0), 0), 0).mark == KCAS_FED_BOTH);
    CLAIM(is(one(get), KCAS_VALUE, 0));
}

/* Verbs that wait for room: KCAS_LATER where the others are answered full, and nothing done. */
static void room(void) {
    const kcas_op fills[] = { kcas_do(jobs, KCAS_ENQ, 1, 0), kcas_do(stack, KCAS_PUSH, 1, 0), kcas_do(table, KCAS_PUT, 0, 1), kcas_do(grown, KCAS_PUT, 0, 1) };
    const uint32_t waits[] = { KCAS_ENQW, KCAS_PUSHW, KCAS_PUTW, KCAS_PUTW }, takes[] = { KCAS_DEQ, KCAS_POP, KCAS_DEL, KCAS_DEL };
    for (size_t i = 0; i < 4; i++) {
        kcas_op op = fills[i], put, both[2];
        for (op.a = 0; one(op).kind == KCAS_UNIT; op.a++) {}
        CLAIM(replies[0].kind == KCAS_FULL && op.a == op.on.capacity);
        put = op;
        put.verb = waits[i];
        both[0] = kcas_at(count, KCAS_INCR, 0, 0);
        both[1] = put;
        CLAIM(done(both, 2) == KCAS_LATER && done(&put, 1) == KCAS_LATER && is(one(kcas_at(count, KCAS_GET, 0, 0)), KCAS_VALUE, 0));
        CLAIM(kcas_hang(&callers[0]) == KCAS_GOING || kcas_hang_step(&callers[0]) == KCAS_NOT_NOW);
        while (kcas_hang_step(&callers[0]) == KCAS_GOING) {}
        if (kcas_leave(&callers[0]) == KCAS_LEAVING) while (kcas_hang_step(&callers[0]) == KCAS_LEAVING) {}
        CLAIM(one(kcas_do(op.on, takes[i], 0, 0)).kind == KCAS_VALUE && is(one(put), KCAS_UNIT, 0));
        for (uint32_t key = 0; key <= op.on.capacity; key++) one(kcas_do(op.on, takes[i], key, 0));
        CLAIM(is(one(kcas_do(op.on, KCAS_LEN, 0, 0)), KCAS_VALUE, 0));
    }
}

/* Takes a job, keeps it in a cache and in a sum, counts it: one array of operations, which waits for a job. */
static void *work(void *arg) {
    size_t me = (size_t)arg;
    for (;;) {
        kcas_op ops[] = {
            kcas_do(jobs, KCAS_DEQW, 0, 0),
            kcas_fed_b(kcas_fed_a(kcas_do(results, KCAS_CPUT, 0, 0), 0), 0),
            kcas_fed_a(kcas_at(sum, KCAS_ADD, 0, 0), 0),
            kcas_at(count, KCAS_INCR, 0, 0),
            kcas_or(kcas_check(count, KCAS_EQ, JOBS)),
        };
        kcas_reply told[5];
        CLAIM(kcas_commit_waiting(&bell, &callers[me], ops, 5, told, 5) == KCAS_DONE);
        if (told[0].kind == KCAS_UNIT) return NULL;
        CLAIM(told[0].kind == KCAS_VALUE && told[1].kind == KCAS_UNIT && told[2].kind == KCAS_VALUE && told[3].kind == KCAS_UNIT);
        taken[me]++;
    }
}

static void pool(void) {
    pthread_t threads[THREADS];
    uint32_t all = 0;
    for (size_t i = 1; i < THREADS; i++) pthread_create(&threads[i], NULL, work, (void *)i);
    for (uint32_t job = 1; job <= JOBS; job++) {
        kcas_op put = kcas_do(jobs, KCAS_ENQW, job, 0);
        CLAIM(kcas_commit_waiting(&bell, &callers[0], &put, 1, replies, 1) == KCAS_DONE && replies[0].kind == KCAS_UNIT);
    }
    for (size_t i = 1; i < THREADS; i++) pthread_join(threads[i], NULL), all += taken[i];
    CLAIM(all == JOBS && is(one(kcas_at(sum, KCAS_GET, 0, 0)), KCAS_VALUE, JOBS * (JOBS + 1) / 2));
    for (uint32_t key = JOBS; key > 0; key--) {
        kcas_reply found = one(kcas_do(results, KCAS_CGET, key, 0));
        CLAIM(found.kind == KCAS_EMPTY || is(found, KCAS_VALUE, key));
    }
}

static kcas_object lay(kcas_object object) {
    uint32_t first = end;
    CLAIM(kcas_lay(&object, values, 8192, &end) == KCAS_DONE);
    CLAIM(object.base == first && end == first + kcas_cells(&object));
    return object;
}

int main(void) {
    jobs = lay(kcas_queue(0, 4));
    stack = lay(kcas_stack(0, 4));
    table = lay(kcas_table(0, 4, 4));
    grown = lay(kcas_grow(0, 4));
    results = lay(kcas_cache(0, 8, 16));
    count = end++;
    sum = end++;
    CLAIM(kcas_open(values, end, callers, THREADS) == KCAS_DONE);
    numbers();
    nothing();
    alternatives();
    refused();
    begins();
    room();
    pool();
    for (size_t i = 0; i < THREADS; i++) CLAIM(kcas_close(&callers[i]) == KCAS_DONE);
    return 0;
}
