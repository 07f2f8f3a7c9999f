/* Each wrong call has its number and changes nothing; alternatives, replies, cells and openings; open and close in a loop. */
#include "test.h"
#include <string.h>

static kcas_caller a[2];
static kcas_reply replies[20];
static uint64_t wakes;

static uint32_t tried(const kcas_op *ops, size_t count, size_t room) { return kcas_try(&a[0], ops, count, replies, room, &wakes); }
static uint32_t one(kcas_op op) { return tried(&op, 1, 16); }
static uint32_t value_at(uint32_t location) {
    uint32_t value = 77, version;
    CLAIM(kcas_read(&a[0], location, &value, &version) == KCAS_DONE);
    return value;
}

static void refusals(void) {
    uint32_t values[4] = { 1, 2, 3, 4 }, value = 9, version = 9;
    kcas_op get = kcas_at(0, KCAS_GET, 0, 0), many[17], bad;
    kcas_seen seen[1];
    static kcas_caller too_many[65];
    kcas_caller three[3] = { KCAS_CALLER_INIT, KCAS_CALLER_INIT, KCAS_CALLER_INIT };
    CLAIM(tried(&get, 1, 1) == KCAS_CLOSED && kcas_close(&a[0]) == KCAS_CLOSED && kcas_is_open(&a[0]) == 0 && kcas_number(&a[0]) == 0xffffffff);
    CLAIM(kcas_read(&a[0], 0, &value, &version) == KCAS_CLOSED && value == 9 && version == 9);
    CLAIM(kcas_reads(&a[0], seen, 1) == 0 && kcas_hang(&a[0]) == KCAS_CLOSED && kcas_hang_step(&a[0]) == KCAS_CLOSED && kcas_signalled(&a[0]) == KCAS_CLOSED && kcas_leave(&a[0]) == KCAS_CLOSED);
    CLAIM(kcas_open(values, 4, a, 0) == KCAS_BAD_SIZE && kcas_open(values, 4, too_many, 65) == KCAS_BAD_SIZE);
    CLAIM(kcas_open(values, 4, a, 2) == KCAS_DONE && kcas_is_open(&a[0]) == 1 && kcas_number(&a[1]) == 1);
    three[1] = a[1];
    CLAIM(kcas_open(values, 4, three, 3) == KCAS_IS_OPEN && kcas_is_open(&three[0]) == 0);
    for (int i = 0; i < 17; i++) many[i] = get;
    CLAIM(tried(many, 0, 16) == KCAS_BAD_OPS && tried(many, 17, 20) == KCAS_BAD_OPS && tried(many, 2, 1) == KCAS_BAD_OPS);
    CLAIM(tried(many, 16, 16) == KCAS_DONE);
    CLAIM(one(kcas_at(4, KCAS_GET, 0, 0)) == KCAS_BAD_OPS && one(kcas_at(0xffffffff, KCAS_GET, 0, 0)) == KCAS_BAD_OPS);
    CLAIM(one(kcas_at(0, KCAS_SWAP, 4, 0)) == KCAS_BAD_OPS && one(kcas_at(0, 0, 0, 0)) == KCAS_BAD_OPS && one(kcas_at(0, 41, 0, 0)) == KCAS_BAD_OPS);
    CLAIM(one(kcas_at(0, KCAS_PUSH, 0, 0)) == KCAS_BAD_OPS && one(kcas_do(kcas_stack(0, 4), KCAS_LEN, 0, 0)) == KCAS_BAD_OPS && one(kcas_do(kcas_stack(0, 0), KCAS_LEN, 0, 0)) == KCAS_BAD_OPS);
    CLAIM(one(kcas_at(0, KCAS_UPDATE, 7, 1)) == KCAS_BAD_OPS && one(kcas_at(0, KCAS_CHECK, 0, 1)) == KCAS_BAD_OPS && one(kcas_or(get)) == KCAS_BAD_OPS);
    bad = get;
    bad.mark = 5;
    CLAIM(one(bad) == KCAS_BAD_OPS);
    bad = get;
    bad.on.kind = 10;
    CLAIM(one(bad) == KCAS_BAD_OPS);
    for (int i = 1; i < 5; i++) many[i] = kcas_or(get);
    CLAIM(tried(many, 5, 16) == KCAS_BAD_OPS && tried(many, 4, 16) == KCAS_DONE);
    CLAIM(kcas_read(&a[0], 4, &value, &version) == KCAS_BAD_OPS && value == 9);
    CLAIM(kcas_hang_step(&a[0]) == KCAS_NOT_NOW && kcas_leave(&a[0]) == KCAS_NOT_NOW && kcas_signalled(&a[0]) == KCAS_NOT_NOW);
    for (uint32_t i = 0; i < 4; i++) CLAIM(value_at(i) == i + 1);
}

static void alternatives(void) {
    kcas_op ops[] = {
        kcas_say(1), kcas_at(0, KCAS_SET, 50, 0), kcas_check(1, KCAS_EQ, 9),
        kcas_or(kcas_say(2)), kcas_check(1, KCAS_NE, 2),
        kcas_or(kcas_say(3)), kcas_at(1, KCAS_DIFFERS, 2, 0),
        kcas_or(kcas_say(4)), kcas_at(2, KCAS_XCHG, 8, 0), kcas_at(0, KCAS_CAS, 1, 5), kcas_at(0, KCAS_CAS, 1, 5),
    };
    kcas_seen seen[16];
    CLAIM(tried(ops, 11, 16) == KCAS_DONE);
    CLAIM(replies[0].value == 4 && replies[1].kind == KCAS_VALUE && replies[1].value == 3 && replies[2].kind == KCAS_BOOL && replies[2].value == 1 && replies[3].value == 0);
    for (int i = 4; i < 11; i++) CLAIM(replies[i].kind == KCAS_NONE && replies[i].value == 0);
    CLAIM(value_at(0) == 5 && value_at(2) == 8);
    CLAIM(tried(ops, 7, 16) == KCAS_LATER && value_at(0) == 5 && kcas_reads(&a[0], seen, 16) == 2 && seen[1].location == 1 && seen[1].value == 2);
    CLAIM(kcas_hang(&a[0]) == KCAS_GOING && tried(ops, 1, 16) == KCAS_NOT_NOW);
    while (kcas_hang_step(&a[0]) == KCAS_GOING) {}
    CLAIM(kcas_signalled(&a[0]) == KCAS_QUIET && kcas_leave(&a[0]) == KCAS_LEAVING);
    while (kcas_hang_step(&a[0]) == KCAS_LEAVING) {}
    CLAIM(one(kcas_at(0, KCAS_INCR, 0, 0)) == KCAS_DONE && replies[0].kind == KCAS_UNIT && value_at(0) == 6);
}

/* One operation alone on a location does, and is told, what it is behind another one. */
static void alone(void) {
    const kcas_op ops[] = {
        kcas_at(0, KCAS_GET, 0, 0), kcas_at(0, KCAS_SET, 9, 0), kcas_at(0, KCAS_XCHG, 9, 0), kcas_at(0, KCAS_SWAP, 1, 0), kcas_at(0, KCAS_CAS, 5, 9), kcas_at(0, KCAS_CAS, 4, 9),
        kcas_at(0, KCAS_ADD, 0xfffffffe, 0), kcas_at(0, KCAS_INCR, 0, 0), kcas_at(0, KCAS_DECR, 0, 0), kcas_at(0, KCAS_UPDATE, KCAS_FUN_MAX, 9), kcas_at(0, KCAS_MODIFY, KCAS_FUN_XOR, 9),
        kcas_check(0, KCAS_GE, 5), kcas_check(0, KCAS_GT, 5), kcas_at(0, KCAS_DIFFERS, 4, 0), kcas_at(0, KCAS_DIFFERS, 5, 0),
    };
    for (size_t i = 0; i < sizeof ops / sizeof ops[0]; i++) {
        uint32_t values[2] = { 5, 6 };
        kcas_caller once[1] = { KCAS_CALLER_INIT }, behind[1] = { KCAS_CALLER_INIT };
        kcas_op two[] = { kcas_say(3), ops[i] };
        kcas_reply told[2] = { { 99, 99 }, { 99, 99 } }, same[2] = { { 99, 99 }, { 99, 99 } };
        kcas_seen seen[2], as_seen[2];
        CLAIM(kcas_open(values, 2, once, 1) == KCAS_DONE && kcas_open(values, 2, behind, 1) == KCAS_DONE);
        uint32_t answer = kcas_try(once, &ops[i], 1, told, 2, &wakes);
        CLAIM(answer == kcas_try(behind, two, 2, same, 2, &wakes) && told[1].kind == 99);
        CLAIM(told[0].kind == same[1].kind && told[0].value == same[1].value && (told[0].kind == 99) == (answer == KCAS_LATER));
        size_t reads = kcas_reads(once, seen, 2);
        CLAIM(reads == kcas_reads(behind, as_seen, 2) && memcmp(seen, as_seen, reads * sizeof seen[0]) == 0);
        for (uint32_t k = 0; k < 2; k++) {
            uint32_t value, version, as_value, as_version;
            CLAIM(kcas_read(once, k, &value, &version) == KCAS_DONE && kcas_read(behind, k, &as_value, &as_version) == KCAS_DONE);
            CLAIM(value == as_value && version == as_version);
        }
        CLAIM(answer == KCAS_DONE || kcas_hang(once) == KCAS_GOING);
        CLAIM(kcas_close(once) == KCAS_DONE && kcas_close(behind) == KCAS_DONE);
    }
}

/* One of each kind, by a few operations. */
static void structures(void) {
    static uint32_t values[65536];
    kcas_object s = kcas_stack(0, 2), q = kcas_queue(10, 2), t = kcas_table(20, 2, 2), g = kcas_grow(50, 4), c = kcas_cache(100, 2, 2), m = kcas_mvar(200), p = kcas_promise(210), x = kcas_acc(220, 4), all[] = { s, q, t, g, c, m, p, x };
    kcas_caller one_caller[1] = { KCAS_CALLER_INIT };
    for (size_t i = 0; i < 8; i++) {
        uint32_t cells = kcas_cells(&all[i]), short_of = cells - 1;
        CLAIM(cells > 0 && kcas_opening(&all[i], &values[all[i].base], short_of) == KCAS_BAD_SIZE);
        CLAIM(kcas_opening(&all[i], &values[all[i].base], cells) == KCAS_DONE);
        all[i].base = KCAS_MOST_LOCATIONS - cells;
        CLAIM(kcas_cells(&all[i]) == cells);
        all[i].base++;
        CLAIM(kcas_cells(&all[i]) == 0);
    }
    CLAIM(kcas_open(values, 65536, one_caller, 1) == KCAS_DONE);
    struct {
        kcas_op op;
        uint32_t answer, kind, value;
    } rows[] = {
        { kcas_do(s, KCAS_PUSH, 7, 0), KCAS_DONE, KCAS_UNIT, 0 }, { kcas_do(s, KCAS_PUSH, 8, 0), KCAS_DONE, KCAS_UNIT, 0 }, { kcas_do(s, KCAS_PUSH, 9, 0), KCAS_DONE, KCAS_FULL, 0 }, { kcas_do(s, KCAS_TOP, 0, 0), KCAS_DONE, KCAS_VALUE, 8 }, { kcas_do(s, KCAS_POPW, 0, 0), KCAS_DONE, KCAS_VALUE, 8 }, { kcas_do(s, KCAS_LEN, 0, 0), KCAS_DONE, KCAS_VALUE, 1 },
        { kcas_do(q, KCAS_ENQ, 3, 0), KCAS_DONE, KCAS_UNIT, 0 }, { kcas_do(q, KCAS_FRONT, 0, 0), KCAS_DONE, KCAS_VALUE, 3 }, { kcas_do(q, KCAS_DEQ, 0, 0), KCAS_DONE, KCAS_VALUE, 3 }, { kcas_do(q, KCAS_DEQ, 0, 0), KCAS_DONE, KCAS_EMPTY, 0 }, { kcas_do(q, KCAS_DEQW, 0, 0), KCAS_LATER, 0, 0 },
        { kcas_do(t, KCAS_PUT, 1, 10), KCAS_DONE, KCAS_UNIT, 0 }, { kcas_do(t, KCAS_PUT, 2, 20), KCAS_DONE, KCAS_UNIT, 0 }, { kcas_do(t, KCAS_PUT, 3, 30), KCAS_DONE, KCAS_FULL, 0 }, { kcas_do(t, KCAS_FIND, 2, 0), KCAS_DONE, KCAS_VALUE, 20 }, { kcas_do(t, KCAS_DEL, 2, 0), KCAS_DONE, KCAS_VALUE, 20 }, { kcas_do(t, KCAS_FIND, 2, 0), KCAS_DONE, KCAS_EMPTY, 0 },
        { kcas_do(g, KCAS_PUT, 5, 50), KCAS_DONE, KCAS_UNIT, 0 }, { kcas_do(g, KCAS_FIND, 5, 0), KCAS_DONE, KCAS_VALUE, 50 }, { kcas_do(g, KCAS_LEN, 0, 0), KCAS_DONE, KCAS_VALUE, 1 },
        { kcas_do(c, KCAS_CPUT, 1, 11), KCAS_DONE, KCAS_UNIT, 0 }, { kcas_do(c, KCAS_CPUT, 2, 22), KCAS_DONE, KCAS_UNIT, 0 }, { kcas_do(c, KCAS_CPUTW, 3, 33), KCAS_LATER, 0, 0 }, { kcas_do(c, KCAS_CPUT, 3, 33), KCAS_DONE, KCAS_UNIT, 0 }, { kcas_do(c, KCAS_CGET, 1, 0), KCAS_DONE, KCAS_EMPTY, 0 }, { kcas_do(c, KCAS_CDEL, 3, 0), KCAS_DONE, KCAS_VALUE, 33 },
        { kcas_do(m, KCAS_MPUT, 4, 0), KCAS_DONE, KCAS_UNIT, 0 }, { kcas_do(m, KCAS_MPUT, 5, 0), KCAS_LATER, 0, 0 }, { kcas_do(m, KCAS_MPEEK, 0, 0), KCAS_DONE, KCAS_VALUE, 4 }, { kcas_do(m, KCAS_MTAKE, 0, 0), KCAS_DONE, KCAS_VALUE, 4 },
        { kcas_do(p, KCAS_RESOLVED, 0, 0), KCAS_DONE, KCAS_BOOL, 0 }, { kcas_do(p, KCAS_RESOLVE, 6, 0), KCAS_DONE, KCAS_UNIT, 0 }, { kcas_do(p, KCAS_RESOLVE, 7, 0), KCAS_DONE, KCAS_BOOL, 0 }, { kcas_do(p, KCAS_AWAIT, 0, 0), KCAS_DONE, KCAS_VALUE, 6 },
        { kcas_do(x, KCAS_BUMP, 5, 1), KCAS_DONE, KCAS_UNIT, 0 }, { kcas_do(x, KCAS_BUMP, 6, 7), KCAS_DONE, KCAS_UNIT, 0 }, { kcas_do(x, KCAS_TOTAL, 0, 0), KCAS_DONE, KCAS_VALUE, 11 },
        { kcas_at(300, KCAS_MODIFY, KCAS_FUN_MAX, 12), KCAS_DONE, KCAS_UNIT, 0 }, { kcas_at(300, KCAS_UPDATE, KCAS_FUN_XOR, 1), KCAS_DONE, KCAS_VALUE, 12 }, { kcas_at(300, KCAS_DECR, 0, 0), KCAS_DONE, KCAS_UNIT, 0 }, { kcas_at(300, KCAS_SWAP, 301, 0), KCAS_DONE, KCAS_UNIT, 0 }, { kcas_at(301, KCAS_GET, 0, 0), KCAS_DONE, KCAS_VALUE, 12 },
    };
    for (size_t i = 0; i < sizeof rows / sizeof rows[0]; i++) {
        kcas_reply told = { 99, 99 };
        uint32_t answer = kcas_commit(NULL, &one_caller[0], &rows[i].op, 1, &told, 1);
        if (answer != rows[i].answer || (answer == KCAS_DONE && (told.kind != rows[i].kind || told.value != rows[i].value))) fprintf(stderr, "row %zu: %u, %u %u\n", i, answer, told.kind, told.value);
        CLAIM(answer == rows[i].answer && (answer != KCAS_DONE || (told.kind == rows[i].kind && told.value == rows[i].value)));
    }
    CLAIM(kcas_close(&one_caller[0]) == KCAS_DONE);
}

/* A body that writes and then wishes what it is told. */
static uint32_t wishes(kcas_log *log, void *wish) {
    kcas_write(log, 0, kcas_read_in(log, 0) + 1);
    return *(uint32_t *)wish;
}

/* Without a bell nobody waits; an unknown wish does nothing. */
static void without_a_bell(void) {
    uint32_t wish = KCAS_COMMIT, before = value_at(0);
    kcas_op never = kcas_check(0, KCAS_LT, 0);
    CLAIM(kcas_run(NULL, &a[0], wishes, &wish) == KCAS_DONE && value_at(0) == before + 1);
    for (wish = KCAS_WAIT; wish <= KCAS_STOP; wish++) CLAIM(kcas_run(NULL, &a[0], wishes, &wish) == KCAS_LATER);
    CLAIM(kcas_run(NULL, &a[0], wishes, &wish) == KCAS_BAD_OPS);
    wish = 0xffffffff;
    CLAIM(kcas_run(NULL, &a[0], wishes, &wish) == KCAS_BAD_OPS && value_at(0) == before + 1);
    CLAIM(kcas_commit_waiting(NULL, &a[0], &never, 1, replies, 1) == KCAS_LATER);
}

int main(int argc, char **argv) {
    uint32_t values[3] = { 1, 2, 3 };
    refusals();
    alternatives();
    without_a_bell();
    alone();
    structures();
    CLAIM(kcas_close(&a[0]) == KCAS_DONE && kcas_close(&a[0]) == KCAS_CLOSED && kcas_close(&a[1]) == KCAS_DONE);
    for (int i = times(argc, argv, 500); i > 0; i--) {
        kcas_caller eight[8] = { KCAS_CALLER_INIT };
        CLAIM(kcas_open(values, 3, eight, 8) == KCAS_DONE);
        for (int k = 0; k < 8; k++) CLAIM(kcas_close(&eight[k]) == KCAS_DONE);
    }
    return 0;
}
