/* The version, each answer's name, and which operation is wrong: at each place, of each cause, with nothing done. */
#include "test.h"
#include <string.h>

static kcas_caller callers[2];
static kcas_bell bell;

static void names(void) {
    char text[32];
    snprintf(text, sizeof text, "%d.%d.%d", KCAS_VERSION_MAJOR, KCAS_VERSION_MINOR, KCAS_VERSION_PATCH);
    CLAIM(strcmp(text, KCAS_VERSION) == 0 && strcmp(kcas_version(), KCAS_VERSION) == 0);
    CLAIM(strcmp(kcas_answer_name(KCAS_DONE), "KCAS_DONE") == 0 && strcmp(kcas_answer_name(KCAS_SIGNALLED), "KCAS_SIGNALLED") == 0);
    CLAIM(strcmp(kcas_answer_name(9), "KCAS_?") == 0 && strcmp(kcas_answer_name(0xffffffff), "KCAS_?") == 0);
    for (uint32_t i = 0; i < 64; i++) {
        int is_one = i <= 8 || (i >= 16 && i <= 21) || (i >= 32 && i <= 37);
        CLAIM((strcmp(kcas_answer_name(i), "KCAS_?") != 0) == is_one);
        for (uint32_t k = 0; k < i && is_one; k++) CLAIM(strcmp(kcas_answer_name(i), kcas_answer_name(k)) != 0);
    }
}

static size_t wrong(const kcas_op *ops, size_t count) {
    uint64_t wakes = 0;
    size_t at = kcas_bad_op(&callers[0], ops, count, &wakes);
    CLAIM(wakes == 0);
    return at;
}

static kcas_op marked(kcas_op op, uint32_t mark) {
    op.mark = mark;
    return op;
}

/* At each place among good ones a bad one is found, where kcas_try refuses the whole, and no good one is. */
static void places(uint32_t size) {
    kcas_op good[] = {
        kcas_say(3), kcas_at(0, KCAS_SET, 9, 0), kcas_at(1, KCAS_ADD, 5, 0), kcas_at(0, KCAS_SWAP, 1, 0), kcas_do(kcas_queue(2, 4), KCAS_ENQ, 7, 0),
        kcas_do(kcas_queue(2, 4), KCAS_DEQW, 0, 0), kcas_or(kcas_check(0, KCAS_EQ, 77)), kcas_at(1, KCAS_UPDATE, KCAS_FUN_MAX, 5),
    };
    kcas_op bad[] = {
        kcas_at(size, KCAS_GET, 0, 0), kcas_at(0, KCAS_SWAP, size, 0), kcas_at(0, 0, 0, 0), kcas_at(0, 41, 0, 0), kcas_at(0, KCAS_ENQ, 1, 0), kcas_at(0, KCAS_UPDATE, 7, 0),
        kcas_check(0, 7, 0), kcas_do(kcas_queue(size - 5, 4), KCAS_LEN, 0, 0), kcas_do(kcas_queue(0, 0), KCAS_LEN, 0, 0), kcas_do(kcas_object_of(10, 0, 1, 1), KCAS_LEN, 0, 0),
        marked(kcas_at(0, KCAS_GET, 0, 0), 5), marked(kcas_say(1), 5), kcas_fed_a(kcas_at(0, KCAS_SET, 0, 0), 8), kcas_fed_b(kcas_say(1), 8),
    };
    size_t goods = sizeof good / sizeof good[0];
    kcas_reply replies[16];
    uint64_t wakes;
    CLAIM(wrong(good, goods) == goods && wrong(good, 0) == 0);
    for (size_t i = 0; i < sizeof bad / sizeof bad[0]; i++) {
        for (size_t at = 0; at < goods; at++) {
            kcas_op ops[16];
            memcpy(ops, good, sizeof good);
            ops[at] = bad[i];
            CLAIM(kcas_try(&callers[0], ops, goods, replies, 16, &wakes) == KCAS_BAD_OPS && wrong(ops, goods) == at);
        }
    }
    kcas_op first_is_or[] = { kcas_or(good[1]) }, five[16];
    CLAIM(wrong(first_is_or, 1) == 0);
    for (int i = 0; i < 16; i++) five[i] = i >= 3 && i <= 5 ? kcas_or(good[1]) : good[1];
    CLAIM(wrong(five, 16) == 16);
    five[9] = kcas_or(good[1]);
    CLAIM(wrong(five, 16) == 9 && kcas_try(&callers[0], five, 16, replies, 16, &wakes) == KCAS_BAD_OPS);
}

int main(void) {
    uint32_t values[16] = { 1, 2 }, value, version;
    kcas_op say = kcas_say(1), get = kcas_at(0, KCAS_GET, 0, 0), each;
    names();
    CLAIM(wrong(&get, 1) == 1); /* of a closed caller nothing is known */
    CLAIM(kcas_open(values, 16, callers, 2) == KCAS_DONE);
    places(16);
    for (uint32_t i = 0; i < 16; i++) {
        each = kcas_at(i, KCAS_GET, 0, 0);
        CLAIM(wrong(&each, 1) == 1);
        CLAIM(kcas_read(&callers[1], i, &value, &version) == KCAS_DONE && value == (i < 2 ? i + 1 : 0) && version == 0);
    }
    CLAIM(kcas_close(&callers[0]) == KCAS_DONE && kcas_close(&callers[1]) == KCAS_DONE);
    /* On a store without locations. */
    CLAIM(kcas_open(values, 0, callers, 1) == KCAS_DONE && wrong(&say, 1) == 1 && wrong(&get, 1) == 0 && kcas_close(&callers[0]) == KCAS_DONE);
    kcas_wake(&bell, 0);
    return 0;
}
