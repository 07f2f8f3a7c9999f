/* Commits of one operation by the library for C, timed in rounds, as main.rt.txt by Rattle's own call. NAME and VERB are given where it is
 * compiled, or BY_ADD: adds by kcas_add, which has no operation. An argument says how many calls to make and nothing more. */
#include <kcas.h>
#include <stdio.h>
#include <time.h>

int main(int count, char **words) {
    uint32_t calls = count > 1 ? atoi(words[1]) : 0;
    uint32_t rounds = calls ? 1 : 200, each = calls ? calls : 5000, values[16] = {0};
    kcas_caller caller = KCAS_CALLER_INIT;
    kcas_bell bell = {0};
    if (kcas_open(values, 16, &caller, 1) != KCAS_DONE) return 1;
    uint32_t at = each % 8, number = rounds;
    for (uint32_t round = 0; round < rounds; round++) {
        struct timespec start, end;
        uint32_t sum = 0;
#ifndef BY_ADD
        kcas_op op = kcas_at(at, VERB, number, 0); /* made once, as in Rattle's program */
#endif
        clock_gettime(CLOCK_MONOTONIC, &start);
        for (uint32_t i = 0; i < each; i++) {
#ifdef BY_ADD
            uint32_t before;
            if (kcas_commit_add(&bell, &caller, at, number, &before) == KCAS_DONE) sum += before;
#else
            kcas_reply reply;
            if (kcas_commit(&bell, &caller, &op, 1, &reply, 1) == KCAS_DONE) sum += reply.value;
#endif
        }
        clock_gettime(CLOCK_MONOTONIC, &end);
        double took = (end.tv_sec - start.tv_sec) * 1e9 + (end.tv_nsec - start.tv_nsec);
        printf("c %s %.0f %u\n", NAME, took * 10 / each, sum);
    }
    return kcas_close(&caller);
}
