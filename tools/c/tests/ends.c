/* Ends: who waits is told KCAS_CLOSED once the bell has ended, and so is who would wait; what needn't wait is done, a body too that would have waited by
 * what it saw at two moments. Callers that come late and leave, more
 * than there are places. An absurd count is refused at once. */
#include "test.h"

enum { WAITERS = 6, PLACES = 3, COMERS = 12 };
static kcas_bell bell;
static kcas_crew crew;
static int rounds;

static void *wait_here(void *at) {
    kcas_op never = kcas_at(0, KCAS_DIFFERS, 0, 0), get = kcas_at(0, KCAS_GET, 0, 0);
    kcas_reply reply = { 99, 99 };
    struct timespec until = kcas_in(60000);
    CLAIM(kcas_commit_until(&bell, (kcas_caller *)at, &never, 1, &reply, 1, &until) == KCAS_CLOSED && reply.kind == 99);
    CLAIM(kcas_commit_waiting(&bell, (kcas_caller *)at, &never, 1, &reply, 1) == KCAS_CLOSED);
    CLAIM(kcas_commit_waiting(&bell, (kcas_caller *)at, &get, 1, &reply, 1) == KCAS_DONE && reply.value == 0);
    CLAIM(kcas_close((kcas_caller *)at) == KCAS_DONE);
    return NULL;
}

static void waiters(void) {
    for (int round = 0; round < rounds; round++) {
        uint32_t values[1] = { 0 };
        pthread_t threads[WAITERS];
        kcas_caller callers[WAITERS] = { KCAS_CALLER_INIT };
        bell = (kcas_bell){ 0 };
        CLAIM(kcas_open(values, 1, callers, WAITERS) == KCAS_DONE);
        for (size_t i = 0; i < WAITERS; i++) pthread_create(&threads[i], NULL, wait_here, &callers[i]);
        for (int i = 0; i < round % 8 * 500; i++) kcas_pause();
        kcas_end(&bell);
        for (size_t i = 0; i < WAITERS; i++) pthread_join(threads[i], NULL);
    }
}

static uint32_t waits(kcas_log *log, void *with) {
    (void)with;
    kcas_read_in(log, 0);
    return KCAS_WAIT;
}

static uint32_t waits_on_nothing(kcas_log *log, void *with) {
    (void)log;
    (void)with;
    return KCAS_WAIT;
}

/* Its two locations are always equal; the first time another adds to both between its reads. So there is no moment at which it would wait. */
static kcas_caller two[2];
static uint32_t waits_where_unequal(kcas_log *log, void *with) {
    kcas_op both[] = { kcas_at(0, KCAS_INCR, 0, 0), kcas_at(1, KCAS_INCR, 0, 0) };
    kcas_reply replies[2];
    uint32_t *runs = (uint32_t *)with, first = kcas_read_in(log, 0), second;
    if ((*runs)++ == 0) CLAIM(kcas_commit(&bell, &two[1], both, 2, replies, 2) == KCAS_DONE);
    second = kcas_read_in(log, 1);
    if (first != second) return KCAS_WAIT;
    kcas_write(log, 2, first + 10);
    return KCAS_COMMIT;
}

static void bodies(void) {
    uint32_t values[3] = { 0 }, runs = 0, value = 0, version = 0;
    bell = (kcas_bell){ 0 };
    CLAIM(kcas_open(values, 3, two, 2) == KCAS_DONE);
    kcas_end(&bell);
    CLAIM(kcas_run(&bell, &two[0], waits_where_unequal, &runs) == KCAS_DONE && runs == 2);
    CLAIM(kcas_read(&two[0], 2, &value, &version) == KCAS_DONE && value == 11 && version == 1);
    CLAIM(kcas_run(&bell, &two[0], waits, NULL) == KCAS_CLOSED && kcas_run(&bell, &two[0], waits_on_nothing, NULL) == KCAS_BAD_OPS);
    CLAIM(kcas_close(&two[0]) == KCAS_DONE && kcas_run(&bell, &two[0], waits, NULL) == KCAS_CLOSED && kcas_close(&two[1]) == KCAS_DONE);
}

/* Comes, adds, and leaves, as often as it can. */
static void *come(void *with) {
    (void)with;
    for (int i = 0; i < rounds; i++) {
        kcas_caller *mine;
        uint32_t before;
        while (!(mine = kcas_come(&crew))) kcas_pause();
        CLAIM(kcas_number(mine) < PLACES && kcas_commit_add(NULL, mine, 1, 1, &before) == KCAS_DONE);
        kcas_go(&crew, mine);
    }
    return NULL;
}

static void comers(void) {
    uint32_t values[2] = { 0, 0 };
    pthread_t threads[COMERS];
    kcas_caller *all[PLACES], *mine;
    kcas_op get = kcas_at(1, KCAS_GET, 0, 0);
    kcas_reply reply;
    CLAIM(kcas_crew_open(&crew, values, 2, 0) == KCAS_BAD_SIZE && kcas_crew_open(&crew, values, 2, 65) == KCAS_BAD_SIZE);
    CLAIM(kcas_crew_open(&crew, values, 2, PLACES) == KCAS_DONE && kcas_crew_open(&crew, values, 2, PLACES) == KCAS_IS_OPEN);
    for (int i = 0; i < PLACES; i++) CLAIM((all[i] = kcas_come(&crew)) && kcas_number(all[i]) == (uint32_t)i);
    CLAIM(!kcas_come(&crew) && kcas_crew_close(&crew) == KCAS_NOT_NOW);
    kcas_go(&crew, all[1]);
    CLAIM(kcas_come(&crew) == all[1]);
    for (int i = 0; i < PLACES; i++) kcas_go(&crew, all[i]);
    for (size_t i = 0; i < COMERS; i++) pthread_create(&threads[i], NULL, come, NULL);
    for (size_t i = 0; i < COMERS; i++) pthread_join(threads[i], NULL);
    CLAIM((mine = kcas_come(&crew)) && kcas_commit(NULL, mine, &get, 1, &reply, 1) == KCAS_DONE && reply.value == (uint32_t)rounds * COMERS);
    CLAIM(kcas_run(&bell, mine, waits, NULL) == KCAS_CLOSED);
    kcas_go(&crew, mine);
    CLAIM(kcas_crew_close(&crew) == KCAS_DONE && !kcas_come(&crew));
}

static void counts(void) {
    uint32_t value = 0;
    kcas_caller one = KCAS_CALLER_INIT;
    CLAIM(kcas_open(&value, (size_t)1 << 60, &one, 1) == KCAS_BAD_SIZE && kcas_open(&value, 1, &one, (size_t)1 << 58) == KCAS_BAD_SIZE && kcas_open(&value, 65537, &one, 1) == KCAS_BAD_SIZE);
    CLAIM(kcas_open(&value, 1, &one, 1) == KCAS_DONE && kcas_open(&value, 1, &one, 1) == KCAS_IS_OPEN && kcas_open(&value, 65537, &one, 1) == KCAS_BAD_SIZE);
    CLAIM(kcas_is_open(&one) == 1 && kcas_close(&one) == KCAS_DONE);
}

int main(int argc, char **argv) {
    rounds = times(argc, argv, 1000);
    if (rounds > 1000) rounds = 1000;
    counts();
    waiters();
    bodies();
    comers();
    return 0;
}
