/* A server of two threads answers two clients: it counts the letters of a text, and keeps in a cache what it has counted. Texts are plain memory,
 * and named by number in the store. A server's thread that has waited long enough looks round, and ends once the server is shut and
 * all requests are answered. */
#include <kcas.h>
#include <pthread.h>
#include <stdio.h>
#include <stdlib.h>

enum { CLIENTS = 2, SERVERS = 2, SLOTS = 4, REQUESTS = 3000, WORDS = 40 };

/* Whoever has taken a slot's number from the store owns it, until it gives the number on. */
static struct {
    uint32_t client, letters;
    char text[32];
} slots[SLOTS];

static kcas_bell bell;
static kcas_caller callers[CLIENTS + SERVERS];
static kcas_object free_slots, requests, answered[CLIENTS], cache;
static uint32_t shut, hits; /* their locations */

/* Waits until it can be done, and answers the reply of the first operation. */
static uint32_t commit(kcas_caller *caller, const kcas_op *ops, size_t count) {
    kcas_reply replies[KCAS_MOST_OPS];
    uint32_t answer = kcas_commit_waiting(&bell, caller, ops, count, replies, KCAS_MOST_OPS);
    if (answer != KCAS_DONE) fprintf(stderr, "%s\n", kcas_answer_name(answer)), abort();
    return replies[0].kind == KCAS_VALUE ? replies[0].value : UINT32_MAX;
}
static uint32_t one(kcas_caller *caller, kcas_object on, uint32_t verb, uint32_t a) {
    kcas_op op = kcas_do(on, verb, a, 0);
    return commit(caller, &op, 1);
}

static void answer_slot(kcas_caller *caller, uint32_t slot) {
    uint32_t key = 0, letters = 0;
    for (const char *at = slots[slot].text; *at; at++) key = key * 31 + (unsigned char)*at;
    uint32_t known = one(caller, cache, KCAS_CGET, key);
    for (const char *at = slots[slot].text; known == UINT32_MAX && *at; at++) letters += *at >= 'a' && *at <= 'z';
    slots[slot].letters = known == UINT32_MAX ? letters : known;
    kcas_op told[] = {
        kcas_do(answered[slots[slot].client], KCAS_MPUT, slot, 0),
        known == UINT32_MAX ? kcas_do(cache, KCAS_CPUT, key, letters) : kcas_at(hits, KCAS_INCR, 0, 0),
    };
    commit(caller, told, 2);
}

static void *serve(void *at) {
    kcas_caller mine = *(kcas_caller *)at; /* moved here, where no other thread writes */
    for (;;) {
        kcas_op next[] = { kcas_do(requests, KCAS_DEQW, 0, 0), kcas_or(kcas_check(shut, KCAS_EQ, 1)) };
        kcas_reply replies[2];
        struct timespec until = kcas_in(100);
        uint32_t answer = kcas_commit_until(&bell, &mine, next, 2, replies, 2, &until);
        if (answer == KCAS_LATER) continue; /* nothing came: a place for what is done from time to time */
        if (answer != KCAS_DONE) abort();
        if (replies[0].kind != KCAS_VALUE) break;
        answer_slot(&mine, replies[0].value);
    }
    *(kcas_caller *)at = mine;
    return NULL;
}

static void *ask(void *at) {
    kcas_caller mine = *(kcas_caller *)at;
    uint32_t me = (uint32_t)((kcas_caller *)at - callers);
    for (uint32_t i = 0; i < REQUESTS; i++) {
        uint32_t slot = one(&mine, free_slots, KCAS_DEQW, 0), word = (i * 7 + me) % WORDS;
        slots[slot].client = me;
        snprintf(slots[slot].text, sizeof slots[slot].text, "%.*s %u", (int)(word % 8), "abcdefgh", word);
        one(&mine, requests, KCAS_ENQ, slot);
        slot = one(&mine, answered[me], KCAS_MTAKE, 0);
        if (slots[slot].letters != word % 8) abort();
        one(&mine, free_slots, KCAS_ENQ, slot);
    }
    *(kcas_caller *)at = mine;
    return NULL;
}

/* Lays a structure behind the others. */
static kcas_object lay(uint32_t values[256], uint32_t *end, kcas_object object) {
    if (kcas_lay(&object, values, 256, end) != KCAS_DONE) abort();
    return object;
}

int main(void) {
    uint32_t values[256] = { 0 }, end = 0;
    pthread_t threads[CLIENTS + SERVERS];
    free_slots = lay(values, &end, kcas_queue(0, SLOTS));
    requests = lay(values, &end, kcas_queue(0, SLOTS));
    for (int i = 0; i < CLIENTS; i++) answered[i] = lay(values, &end, kcas_mvar(0));
    cache = lay(values, &end, kcas_cache(0, 8, 24));
    shut = end;
    hits = end + 1;
    if (kcas_open(values, 256, callers, CLIENTS + SERVERS) != KCAS_DONE) return 1;
    for (uint32_t i = 0; i < SLOTS; i++) one(&callers[0], free_slots, KCAS_ENQ, i);
    for (int i = 0; i < CLIENTS + SERVERS; i++) pthread_create(&threads[i], NULL, i < CLIENTS ? ask : serve, &callers[i]);
    for (int i = 0; i < CLIENTS; i++) pthread_join(threads[i], NULL);
    one(&callers[0], kcas_loc(shut), KCAS_SET, 1);
    for (int i = CLIENTS; i < CLIENTS + SERVERS; i++) pthread_join(threads[i], NULL);
    uint32_t known = one(&callers[0], kcas_loc(hits), KCAS_GET, 0);
    printf("%d requests answered, some of them by the cache: %s\n", CLIENTS * REQUESTS, known > 0 ? "yes" : "no");
    for (int i = 0; i < CLIENTS + SERVERS; i++) kcas_close(&callers[i]);
    return 0;
}
