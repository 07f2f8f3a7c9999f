/* Eight threads work on a table and a queue. Each transaction takes a ticket, so that the tickets are one order of all; in that
 * order a plain model replies the same. */
#include "test.h"
#include <string.h>

enum { THREADS = 8, KEYS = 24, ROOM = 16, PLACES = 8 };

typedef struct record {
    uint32_t verb, key, value;
    kcas_reply table, queue;
} record;

static kcas_caller callers[THREADS];
static kcas_object table, queue;
static record *records;
static int rounds;
static uint32_t ticket;

static void *worker(void *arg) {
    size_t me = (size_t)arg;
    uint32_t state = (uint32_t)me * 31 + 7;
    static const uint32_t verbs[] = { KCAS_PUT, KCAS_PUT, KCAS_FIND, KCAS_DEL };
    for (int i = 0; i < rounds; i++) {
        record made = { verbs[drawn(&state) >> 30], drawn(&state) >> 16, drawn(&state), { 0, 0 }, { 0, 0 } };
        made.key %= KEYS;
        kcas_op ops[] = {
            kcas_at(ticket, KCAS_ADD, 1, 0),
            kcas_do(table, made.verb, made.key, made.value),
            kcas_do(queue, made.value & 1 ? KCAS_ENQ : KCAS_DEQ, made.value, 0),
        };
        kcas_reply replies[3];
        CLAIM(kcas_commit(NULL, &callers[me], ops, 3, replies, 3) == KCAS_DONE);
        made.table = replies[1];
        made.queue = replies[2];
        CLAIM(replies[0].value < (uint32_t)(THREADS * rounds) && records[replies[0].value].verb == 0);
        records[replies[0].value] = made;
    }
    return NULL;
}

static kcas_reply reply_of(uint32_t kind, uint32_t value) {
    kcas_reply reply = { kind, value };
    return reply;
}

static void same(kcas_reply told, kcas_reply meant, uint32_t at) {
    if (told.kind != meant.kind || told.value != meant.value) fprintf(stderr, "ticket %u: %u %u, and not %u %u\n", at, told.kind, told.value, meant.kind, meant.value);
    CLAIM(told.kind == meant.kind && told.value == meant.value);
}

static void replay(void) {
    uint32_t has[KEYS] = { 0 }, value[KEYS] = { 0 }, count = 0, items[PLACES], first = 0, length = 0;
    for (uint32_t i = 0; i < (uint32_t)(THREADS * rounds); i++) {
        const record *r = &records[i];
        uint32_t k = r->key;
        kcas_reply meant = has[k] ? reply_of(KCAS_VALUE, value[k]) : reply_of(KCAS_EMPTY, 0);
        if (r->verb == KCAS_PUT) {
            meant = has[k] || count < ROOM ? reply_of(KCAS_UNIT, 0) : reply_of(KCAS_FULL, 0);
            if (meant.kind == KCAS_UNIT) {
                count += !has[k];
                has[k] = 1;
                value[k] = r->value;
            }
        } else if (r->verb == KCAS_DEL && has[k]) {
            has[k] = 0;
            count--;
        }
        same(r->table, meant, i);
        if (r->value & 1) {
            meant = length < PLACES ? reply_of(KCAS_UNIT, 0) : reply_of(KCAS_FULL, 0);
            if (length < PLACES) items[(first + length++) % PLACES] = r->value;
        } else if (length == 0) {
            meant = reply_of(KCAS_EMPTY, 0);
        } else {
            meant = reply_of(KCAS_VALUE, items[first]);
            first = (first + 1) % PLACES;
            length--;
        }
        same(r->queue, meant, i);
    }
}

int main(int argc, char **argv) {
    static uint32_t values[4096];
    pthread_t threads[THREADS];
    rounds = times(argc, argv, 20000);
    table = kcas_table(1, 4, ROOM);
    queue = kcas_queue(1 + kcas_cells(&table), PLACES);
    CLAIM(kcas_opening(&table, values + table.base, 2048) == KCAS_DONE && kcas_opening(&queue, values + queue.base, 1024) == KCAS_DONE);
    records = calloc((size_t)THREADS * (size_t)rounds, sizeof *records);
    CLAIM(records && kcas_open(values, 4096, callers, THREADS) == KCAS_DONE);
    for (size_t i = 0; i < THREADS; i++) pthread_create(&threads[i], NULL, worker, (void *)i);
    for (size_t i = 0; i < THREADS; i++) pthread_join(threads[i], NULL);
    replay();
    for (int i = 0; i < THREADS; i++) CLAIM(kcas_close(&callers[i]) == KCAS_DONE);
    free(records);
    return 0;
}
