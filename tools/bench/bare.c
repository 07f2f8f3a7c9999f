// The peer of a straight commit: its atomic operations in their order on words that lie as a table's do, and nothing else.
// Where one fails, the commit drops its descriptor and begins again with what stands.
// Prints a line for each round: whose, what, puts, mode, threads, where, tenths of nanoseconds per commit.
// Usage: bare PUTS THREADS same|own ROUNDS COMMITS [READS]
// READS locations are only read, by each commit of a thread alone.
#include <pthread.h>
#include <stdatomic.h>
#include <stdint.h>
#include <stdio.h>
#include <stdlib.h>
#include <string.h>
#include <time.h>

enum { MOST_LINES = 16, LOCATIONS = 512, COUNT = 8, BASE = LOCATIONS + 16 * COUNT, DESCRIPTOR = 520, POOL = 13 };
static _Alignas(128) _Atomic uint64_t words[BASE + DESCRIPTOR * POOL];
static int puts_, reads, same;
static uint64_t commits;

static double now(void) {
    struct timespec t;
    clock_gettime(CLOCK_MONOTONIC, &t);
    return t.tv_sec * 1e9 + t.tv_nsec;
}

static uint64_t raised(uint64_t seen) { return (((seen >> 32) + 1) << 32) | ((seen + 1) & 0xffffffff); }

// The lines that are only read come first.
__attribute__((noinline)) static void run(uint64_t caller) {
    uint64_t descriptor = 3 * caller, number = 0, seen[MOST_LINES];
    int lines = reads + puts_;
    _Atomic uint64_t *d = words + BASE + DESCRIPTOR * descriptor, *w[MOST_LINES];
    for (int k = 0; k < lines; k++) {
        w[k] = words + (reads ? 16 * k : LOCATIONS + 16 * (same ? k : 2 * caller + k));
        while ((seen[k] = atomic_load(w[k])) >> 63) {}
    }
    for (uint64_t done = 0; done < commits;) {
        uint64_t control = atomic_load(d), generation = (control >> 24) + 1;
        if (control & 0xffffff) continue;
        if (!atomic_compare_exchange_strong(d, &control, (generation << 24) | 1)) continue;
        atomic_exchange(d + 2, (caller << 58) | ((uint64_t)lines << 48) | ++number);
        for (int k = 0; k < lines; k++) {
            atomic_exchange(d + 3 + 2 * k, (k < reads ? 0 : 1ull << 63) | seen[k]);
            atomic_exchange(d + 4 + 2 * k, ((uint64_t)k << 32) | ((seen[k] + 1) & 0xffffffff));
        }
        atomic_exchange(d + 1, generation << 24);
        int made = reads;
        for (; made < lines; made++) {
            uint64_t stood = seen[made];
            if (!atomic_compare_exchange_strong(w[made], &stood, (1ull << 63) | (generation << 23) | (descriptor << 8) | made)) break;
        }
        int is_made = made == lines;
        for (int k = 0; is_made && k < reads; k++) is_made = atomic_load(w[k]) == seen[k];
        uint64_t active = generation << 24, decided = active | (is_made ? 256 : 512);
        atomic_compare_exchange_strong(d + 1, &active, decided);
        for (int k = reads; k < made; k++) {
            uint64_t mine = (1ull << 63) | (generation << 23) | (descriptor << 8) | k;
            atomic_compare_exchange_strong(w[k], &mine, is_made ? raised(seen[k]) : seen[k]);
        }
        for (int k = reads; is_made && k < lines; k++)
            if (atomic_load(w[k] + 1)) atomic_exchange(w[k] + 1, 0);
        atomic_fetch_sub(d, 1);
        if (is_made) {
            done++;
            for (int k = reads; k < lines; k++) seen[k] = raised(seen[k]);
        } else
            for (int k = 0; k < lines; k++)
                while ((seen[k] = atomic_load(w[k])) >> 63) {}
    }
}

static void *go(void *caller) {
    run((uint64_t)caller);
    return NULL;
}

int main(int count, char **args) {
    if (count < 6) return 1;
    puts_ = atoi(args[1]);
    int threads = atoi(args[2]), rounds = atoi(args[4]);
    same = !strcmp(args[3], "same");
    commits = strtoull(args[5], 0, 10);
    reads = count > 6 ? atoi(args[6]) : 0;
    for (int round = 0; round < rounds; round++) {
        pthread_t running[4];
        double start = now();
        for (uint64_t t = 1; t < (uint64_t)threads; t++) pthread_create(&running[t], 0, go, (void *)t);
        run(0);
        for (int t = 1; t < threads; t++) pthread_join(running[t], 0);
        double took = (now() - start) / (double)(commits * threads);
        printf("C %s %d Light %d %s %.0f\n", reads ? "eight" : "commit", puts_, threads, args[3], took * 10);
    }
}
