/* What the library has in plain C, so that programs in other languages have it too. None of it is proved. */
#include <kcas.h>

const char *kcas_version(void) { return KCAS_VERSION; }

#define NAMED(answer) \
    case answer: \
        return #answer

const char *kcas_answer_name(uint32_t answer) {
    switch (answer) {
        NAMED(KCAS_DONE);
        NAMED(KCAS_LATER);
        NAMED(KCAS_TOO_LARGE);
        NAMED(KCAS_WORN);
        NAMED(KCAS_POOL_WORN);
        NAMED(KCAS_LOST);
        NAMED(KCAS_BUSY);
        NAMED(KCAS_PUTS);
        NAMED(KCAS_CHANGED);
        NAMED(KCAS_CLOSED);
        NAMED(KCAS_IS_OPEN);
        NAMED(KCAS_BAD_OPS);
        NAMED(KCAS_NO_MEMORY);
        NAMED(KCAS_BAD_SIZE);
        NAMED(KCAS_NOT_NOW);
        NAMED(KCAS_GOING);
        NAMED(KCAS_HUNG);
        NAMED(KCAS_LEAVING);
        NAMED(KCAS_FREE);
        NAMED(KCAS_QUIET);
        NAMED(KCAS_SIGNALLED);
    default:
        return "KCAS_?";
    }
}

/* Whether the store has no such operation behind so many of its alternative. It is tried behind a check that no value passes, so it never
 * runs; and the library itself says whether it is one, by its own rules. What it is fed is the reply of that check. */
static int is_refused(kcas_caller *caller, kcas_op op, size_t place, uint64_t *wakes) {
    kcas_op ops[] = { kcas_check(0, KCAS_LT, 0), op };
    kcas_reply replies[2];
    uint64_t woken = 0;
    int feeds_a = op.mark == KCAS_FED_A || op.mark == KCAS_FED_BOTH, feeds_b = op.mark == KCAS_FED_B || op.mark == KCAS_FED_BOTH;
    if (op.mark > KCAS_FED_BOTH || (feeds_a && op.a >= place) || (feeds_b && op.b >= place)) return 1;
    if (op.verb == KCAS_SAY) return 0; /* right on a store without locations, where the check isn't */
    if (op.mark == KCAS_OR) ops[1].mark = KCAS_NEXT;
    if (feeds_a) ops[1].a = 0;
    if (feeds_b) ops[1].b = 0;
    uint32_t answer = kcas_try(caller, ops, 2, replies, 2, &woken);
    *wakes |= woken;
    return answer == KCAS_BAD_OPS;
}

size_t kcas_bad_op(kcas_caller *caller, const kcas_op *ops, size_t count, uint64_t *wakes) {
    size_t alternatives = 1, begins = 0;
    for (size_t i = 0; i < count; i++) {
        if (ops[i].mark == KCAS_OR) {
            alternatives++;
            begins = i;
        }
        if ((i == 0 && ops[i].mark == KCAS_OR) || alternatives > KCAS_MOST_ALTERNATIVES || is_refused(caller, ops[i], i - begins, wakes)) return i;
    }
    return count;
}
