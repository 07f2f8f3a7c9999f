/* Looks where another caller's thread has stopped, by a signal, anywhere amid its commits: what only reads is told what stood at one moment, and what may
 * put is too, or is told KCAS_CHANGED; neither looks for ever. And a commit goes on where the looks don't. */
#include "test.h"
#include <signal.h>
#include <string.h>
#include <unistd.h>

enum { LOCATIONS = 8 };
static kcas_caller callers[2];
static kcas_word ended, made;
static int stopped[2], goes_on[2];

static void stop(int number) {
    char byte = (char)number;
    if (write(stopped[1], &byte, 1) != 1 || read(goes_on[0], &byte, 1) != 1) _exit(1);
}

/* Adds one to all locations, again and again. */
static void *add(void *with) {
    kcas_op ops[LOCATIONS];
    kcas_reply replies[LOCATIONS];
    for (uint32_t i = 0; i < LOCATIONS; i++) ops[i] = kcas_at(i, KCAS_INCR, 0, 0);
    while (!kcas_load(&ended)) {
        CLAIM(kcas_commit(NULL, &callers[1], ops, LOCATIONS, replies, LOCATIONS) == KCAS_DONE);
        kcas_plus(&made, 1);
    }
    return with;
}

int main(int argc, char **argv) {
    const uint32_t values[LOCATIONS + 1] = { 0 };
    uint32_t amid = 0;
    int rounds = times(argc, argv, 300);
    char byte = 0;
    pthread_t thread;
    struct sigaction action;
    kcas_op look[LOCATIONS + 1];
    kcas_reply replies[LOCATIONS + 1], again[LOCATIONS + 1];
    for (uint32_t i = 0; i < LOCATIONS; i++) look[i] = kcas_at(i, KCAS_GET, 0, 0);
    look[LOCATIONS] = kcas_at(LOCATIONS, KCAS_CAS, 77, 78);
    if (rounds > 300) rounds = 300;
    memset(&action, 0, sizeof action);
    action.sa_handler = stop;
    CLAIM(pipe(stopped) == 0 && pipe(goes_on) == 0 && sigaction(SIGUSR1, &action, NULL) == 0);
    CLAIM(kcas_open(values, LOCATIONS + 1, callers, 2) == KCAS_DONE);
    pthread_create(&thread, NULL, add, NULL);
    for (int i = 0; i < rounds; i++) {
        uint32_t before = kcas_load(&made);
        while (kcas_load(&made) - before < 3) kcas_pause();
        for (uint32_t k = 0; k < (uint32_t)i % 16; k++) kcas_pause();
        CLAIM(pthread_kill(thread, SIGUSR1) == 0 && read(stopped[0], &byte, 1) == 1);
        uint32_t answer = kcas_look(NULL, &callers[0], look, LOCATIONS + 1, replies, LOCATIONS + 1);
        CLAIM(answer == KCAS_DONE || answer == KCAS_CHANGED);
        if (answer == KCAS_CHANGED) amid++;
        CLAIM(kcas_look(NULL, &callers[0], look, LOCATIONS, again, LOCATIONS) == KCAS_DONE);
        for (uint32_t k = 1; k < LOCATIONS; k++) CLAIM(again[k].value == again[0].value);
        CLAIM(answer == KCAS_CHANGED || replies[0].value == again[0].value);
        CLAIM(kcas_commit(NULL, &callers[0], look, LOCATIONS + 1, replies, LOCATIONS + 1) == KCAS_DONE && replies[0].value == again[0].value);
        CLAIM(write(goes_on[1], &byte, 1) == 1);
    }
    kcas_plus(&ended, 1);
    pthread_join(thread, NULL);
    printf("%u of %d stops were amid a commit\n", amid, rounds);
    CLAIM(kcas_close(&callers[0]) == KCAS_DONE && kcas_close(&callers[1]) == KCAS_DONE);
    return 0;
}
