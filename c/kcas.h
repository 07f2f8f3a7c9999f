/*
 * kcas.h: transactions on a store that threads share without a lock.
 *
 * A store has up to 65,536 locations of 32 bits, and up to 64 callers. Structures (stacks, queues, tables, caches ..) lie
 * in its locations. A transaction is an array of operations that happens at one moment or not at all. Each thread
 * has a handle of its own, a `kcas_caller`; no call waits, and no transaction takes memory.
 *
 * The first part declares the calls of the library libkcas; what each answers is proved. The second part is plain
 * C over these calls: it tries again, waits, and runs transactions whose next step depends on what they read. It is C11, or C++11 and on;
 * kcas.hpp, with classes, is C++17.
 *
 * What a program has to uphold, since the library can't test it:
 *
 * - one thread at a time in a handle; a handle is handed on by a lock, a join or an atomic (with KCAS_CHECKED
 *   defined, a second thread in a handle ends the program);
 * - a handle may be moved while no call runs on it; it is never copied and then used twice, nor written to;
 * - a pointer has as many elements behind it as is said, and replies and ops don't overlap;
 * - no call from a signal handler, nor in a child between fork and exec;
 * - all who commit on a store by which some wait use that store's one bell.
 *
 * Order. Each access of the library to its words is sequentially consistent. So what a thread did before a try that was answered KCAS_DONE
 * and put something happens before what another thread does behind a try, a view or a kcas_read that read what was put, or a later value there:
 * plain memory may be handed on by a number in the store. A try that put nothing (KCAS_LATER, KCAS_LOST, KCAS_BUSY, KCAS_DONE of reads alone)
 * orders nothing for others, nor does a view; and two tries that share no location order nothing between their threads.
 */
#ifndef KCAS_H
#define KCAS_H

#include <stddef.h>
#include <stdint.h>

/* The version of this header. kcas_version() has that of the library: a program that was built by one and runs with
 * another can compare them. Until 1.0.0 a second number that differs may mean calls that differ. */
#define KCAS_VERSION_MAJOR 0
#define KCAS_VERSION_MINOR 9
#define KCAS_VERSION_PATCH 0
#define KCAS_VERSION "0.9.0"

#ifdef __cplusplus
extern "C" {
#endif

/* ---- data ---- */

/* A caller's handle. All zero: closed. Each call writes to it, so where handles lie beside one another, a thread does best to move its
 * own to memory that no other thread uses (kcas_caller mine = callers[i];). */
typedef struct kcas_caller {
    uint32_t held;
    uint32_t busy; /* of KCAS_CHECKED alone */
    void *at;
} kcas_caller;

#define KCAS_CALLER_INIT { 0, 0, 0 }

/* Kinds of structures. A stack, queue or growing table has a capacity of 1 to 4,096 items or keys; a table and a
 * cache have besides 1 to 1,024 buckets; the capacity of a total is the number of its cells, 1 to 32. */
enum {
    KCAS_LOC = 1, /* one location */
    KCAS_STACK,
    KCAS_QUEUE,
    KCAS_TABLE,
    KCAS_GROW, /* a table that begins with one bucket and splits buckets as keys come */
    KCAS_CACHE, /* a table that drops the least recently used key */
    KCAS_MVAR, /* a place for one value */
    KCAS_PROMISE, /* a value that is set once */
    KCAS_ACC /* a total that is kept in several cells, so that those who add seldom meet */
};

/* Where a structure lies: its kind, its first location, its sizes. What its kind doesn't use is not looked at.
 * Structures that overlap are the program's to avoid: kcas_lay lays one behind another, and kcas_cells says how many locations one takes. */
typedef struct kcas_object {
    uint32_t kind, base, capacity, buckets;
} kcas_object;

/* What is done. K is a key, V and W are values; "waits" says when the transaction is answered KCAS_LATER. */
enum {
    KCAS_SAY = 1, /* a = V: replies V, touches nothing, and needs no structure */
    /* on a location */
    KCAS_GET, /* replies the value */
    KCAS_SET, /* a = V: unit */
    KCAS_XCHG, /* a = V: puts V, replies the value before */
    KCAS_SWAP, /* a = another location: each gets the other's value; unit */
    KCAS_CAS, /* a = V, b = W: puts W where the value is V; bool */
    KCAS_ADD, /* a = V: adds V, which wraps; replies the value before */
    KCAS_INCR, /* unit */
    KCAS_DECR, /* unit */
    KCAS_UPDATE, /* a = a function, b = V: puts what it makes of the value and V, replies the value before */
    KCAS_MODIFY, /* the same; unit */
    KCAS_CHECK, /* a = a relation, b = V: waits unless it holds of the value and V; unit */
    KCAS_DIFFERS, /* a = V: waits while the value is V; unit */
    /* on a stack */
    KCAS_PUSH, /* a = V: unit, or full */
    KCAS_POP, /* the top item, or empty */
    KCAS_POPW, /* the top item; waits where there is none */
    KCAS_TOP, /* the top item, which stays, or empty */
    /* on a queue */
    KCAS_ENQ, /* a = V: unit, or full */
    KCAS_DEQ, /* the front item, or empty */
    KCAS_DEQW, /* the front item; waits where there is none */
    KCAS_FRONT, /* the front item, which stays, or empty */
    /* on a table of either kind */
    KCAS_PUT, /* a = K, b = V: unit; full where K is new and there is no room */
    KCAS_FIND, /* a = K: its value, or empty */
    KCAS_DEL, /* a = K: takes it out and replies its value, or empty */
    /* on a cache; each but KCAS_CDEL makes its key the most recently used one */
    KCAS_CPUT, /* a = K, b = V: unit; the least recently used key goes where K is new and there is no room */
    KCAS_CPUTW, /* a = K, b = V: unit; waits where a key would have to go */
    KCAS_CGET, /* a = K: its value, or empty */
    KCAS_CDEL, /* a = K: takes it out and replies its value, or empty */
    /* on a one-place variable */
    KCAS_MPUT, /* a = V: unit; waits where there is a value */
    KCAS_MTAKE, /* takes the value; waits where there is none */
    KCAS_MPEEK, /* the value, which stays, or empty */
    /* on a promise */
    KCAS_RESOLVE, /* a = V: unit; bool false where there is a value, which stays */
    KCAS_AWAIT, /* the value; waits where there is none */
    KCAS_RESOLVED, /* bool */
    /* on a total */
    KCAS_BUMP, /* a = V, b = a number that picks the cell, as that of a thread: unit */
    KCAS_TOTAL, /* the total, which wraps */
    /* on a stack, queue, table or cache */
    KCAS_LEN, /* how many items or keys */
    /* on a stack, a queue, a table of either kind, where there may be no room */
    KCAS_PUSHW, /* as KCAS_PUSH; waits where that is full */
    KCAS_ENQW, /* as KCAS_ENQ; waits where that is full */
    KCAS_PUTW /* as KCAS_PUT; waits where that is full */
};

/* Functions of KCAS_UPDATE and KCAS_MODIFY. */
enum { KCAS_FUN_ADD = 1, KCAS_FUN_MAX, KCAS_FUN_MIN, KCAS_FUN_AND, KCAS_FUN_OR, KCAS_FUN_XOR };

/* Relations of KCAS_CHECK, the location's value standing left. */
enum { KCAS_EQ = 1, KCAS_NE, KCAS_LT, KCAS_LE, KCAS_GT, KCAS_GE };

/* KCAS_OR: this operation begins the next alternative. The alternatives are tried in order; one that would wait is
 * forgotten, with all that it did. A transaction has at most four.
 *
 * KCAS_FED_A: `a` names an operation before this one in its alternative, the alternative's first being 0, and the number is what that
 * operation replied; KCAS_FED_B: likewise `b`; KCAS_FED_BOTH: both. Where such a reply is no number (empty, say), this operation does nothing, and
 * replies empty. What names no operation before it is KCAS_BAD_OPS, and so is KCAS_FED_A or KCAS_FED_BOTH of KCAS_SWAP, KCAS_UPDATE,
 * KCAS_MODIFY and KCAS_CHECK, whose `a` is a location, a function or a relation. kcas_fed_a and kcas_fed_b set the mark. */
enum { KCAS_NEXT = 0, KCAS_OR = 1, KCAS_FED_A = 2, KCAS_FED_B = 3, KCAS_FED_BOTH = 4 };

/* No mark. An operation that begins an alternative has none before it there, so it can't be fed: kcas_or of one that is fed, or kcas_fed_a or
 * kcas_fed_b of one that begins an alternative, sets this, and the transaction is KCAS_BAD_OPS. */
#define KCAS_NO_MARK UINT32_MAX

typedef struct kcas_op {
    uint32_t verb, mark;
    kcas_object on;
    uint32_t a, b;
} kcas_op;

/* Kinds of replies. */
enum { KCAS_NONE = 0, KCAS_UNIT, KCAS_VALUE, KCAS_BOOL, KCAS_EMPTY, KCAS_FULL };

/* The value is that of KCAS_VALUE, 1 or 0 at KCAS_BOOL, and else 0. */
typedef struct kcas_reply {
    uint32_t kind, value;
} kcas_reply;

typedef struct kcas_seen {
    uint32_t location, version, value;
} kcas_seen;

/* What the calls answer. */
enum {
    KCAS_DONE = 0,
    /* of a try */
    KCAS_LATER = 1, /* it would wait: nothing was done */
    KCAS_TOO_LARGE = 2, /* it would touch more than 256 locations: nothing was done */
    KCAS_WORN = 3, /* a location has been put 2,147,483,647 times: nothing was done */
    KCAS_POOL_WORN = 4, /* the store has no descriptor left, after billions of tries */
    KCAS_LOST = 5, /* another caller was faster: nothing was done; try again */
    KCAS_BUSY = 6, /* given up in time: nothing was done; try again */
    /* of a view, besides the first three and KCAS_BUSY */
    KCAS_PUTS = 7, /* it would put something: nothing was done */
    KCAS_CHANGED = 8, /* what it read has changed since, or a descriptor of another caller stood there: view again */
    /* of a wrong call: nothing was changed */
    KCAS_CLOSED = 16,
    KCAS_IS_OPEN = 17,
    KCAS_BAD_OPS = 18,
    KCAS_NO_MEMORY = 19,
    KCAS_BAD_SIZE = 20,
    KCAS_NOT_NOW = 21, /* the caller hangs, or doesn't */
    /* of a hang */
    KCAS_GOING = 32,
    KCAS_HUNG = 33,
    KCAS_LEAVING = 34,
    KCAS_FREE = 35,
    KCAS_QUIET = 36,
    KCAS_SIGNALLED = 37
};

/* How often a location can be put. */
#define KCAS_LAST_VERSION 2147483647u

enum { KCAS_MOST_LOCATIONS = 65536, KCAS_MOST_CALLERS = 64, KCAS_MOST_OPS = 16, KCAS_MOST_ALTERNATIVES = 4, KCAS_MOST_TOUCHED = 256 };

/* ---- calls of the library ---- */

/* How many locations a structure takes, from its base on; 0 where there is no such structure: of an unknown kind, of a
 * size that there isn't, or with a cell above location 65,535. */
uint32_t kcas_cells(const kcas_object *object);

/* Writes the values that the structure's cells open with, to values[0] and on: KCAS_DONE. KCAS_BAD_SIZE where there is no
 * such structure, or fewer values than it has cells; then none is written. */
uint32_t kcas_opening(const kcas_object *object, uint32_t *values, size_t room);

/* Lays a structure right behind the first *end values: its base becomes *end, the values from there on what its cells open with, and *end
 * is then behind them: KCAS_DONE. What is laid so doesn't overlap. KCAS_BAD_SIZE, and nothing changes, where there is no such structure, the
 * `room` values have no room for its cells, or are more than 65,536. */
uint32_t kcas_lay(kcas_object *object, uint32_t *values, size_t room, uint32_t *end);

/* Opens a store whose locations have these values, at most 65,536, and each handle as one of its callers, 1 to 64:
 * KCAS_DONE. Or KCAS_BAD_SIZE, by the counts alone: neither values nor handles are looked at; else KCAS_IS_OPEN where one of them was
 * open; KCAS_NO_MEMORY. Then those that were closed are closed, and no memory is kept. */
uint32_t kcas_open(const uint32_t *values, size_t count, kcas_caller *callers, size_t callers_count);

/* Closes the handle: KCAS_DONE, or KCAS_CLOSED. The store is freed with its last handle. */
uint32_t kcas_close(kcas_caller *caller);

/* 1 or 0. */
uint32_t kcas_is_open(kcas_caller *caller);

/* The number of the handle's caller in its store, from 0 on: the bit by which `wakes` names it. 0xFFFFFFFF: closed. */
uint32_t kcas_number(kcas_caller *caller);

/* Tries the operations once, as one transaction: KCAS_DONE to KCAS_BUSY. At KCAS_DONE as many replies are written as there are
 * operations: first those of the operations that ran, in order, then KCAS_NONE. KCAS_BAD_OPS where they are no transaction of this store: none or
 * more than 16, a kind, verb or mark that there isn't, a cell outside of the store, more than four alternatives, or
 * less room than operations. Which alternative ran is told by a KCAS_SAY in it. *wakes gets a bit for each caller
 * whose hang this try has ended, at every answer of a try: who waits by hangs has to wake them. */
uint32_t kcas_try(kcas_caller *caller, const kcas_op *ops, size_t count, kcas_reply *replies, size_t room, uint64_t *wakes);

/* Views the operations once, as one transaction that puts nothing: KCAS_DONE, with replies as by kcas_try, where all that they read stood at one
 * moment. KCAS_LATER, KCAS_TOO_LARGE; KCAS_PUTS where they would put something (so a KCAS_DEQ of an empty queue is a view, and of
 * another is not); KCAS_CHANGED where what they read has changed meanwhile, or a descriptor of another caller stood there, though nothing may have
 * changed; KCAS_BUSY; KCAS_BAD_OPS as by kcas_try. It takes no descriptor, puts nothing, and no other caller loses or waits by it, nor is helped: where
 * one has stopped amid its try, views of what that would put may be answered KCAS_CHANGED until it goes on, or a try of another ends it. kcas_reads
 * tells what it read, and one may hang on that. kcas_look below views again. */
uint32_t kcas_view(kcas_caller *caller, const kcas_op *ops, size_t count, kcas_reply *replies, size_t room);

/* Tries once, as one transaction, to add a number to one location, which wraps: as kcas_try of one KCAS_ADD, for less. At KCAS_DONE
 * *before gets the value that stood there; else it stays. KCAS_BAD_OPS for a location outside of the store. It never answers
 * KCAS_LATER or KCAS_TOO_LARGE. */
uint32_t kcas_add(kcas_caller *caller, uint32_t location, uint32_t number, uint32_t *before, uint64_t *wakes);

/* One location and its version, without a transaction: KCAS_DONE; KCAS_BUSY; KCAS_BAD_OPS for a location outside. */
uint32_t kcas_read(kcas_caller *caller, uint32_t location, uint32_t *value, uint32_t *version);

/* What the last try or view read, in rising order of location: how many are written. Behind KCAS_BUSY they may be those of an earlier one. */
size_t kcas_reads(kcas_caller *caller, kcas_seen *reads, size_t room);

/* A wait for a change of what the last try read, a step a call; kcas_commit_waiting below makes it. kcas_hang begins it:
 * KCAS_GOING. kcas_hang_step: KCAS_GOING until KCAS_HUNG (the caller will be signalled), or KCAS_FREE (something has changed
 * already). kcas_signalled: KCAS_QUIET or KCAS_SIGNALLED. kcas_leave begins to leave: KCAS_LEAVING, and kcas_hang_step until
 * KCAS_FREE. While a caller hangs its tries are answered KCAS_NOT_NOW. */
uint32_t kcas_hang(kcas_caller *caller);
uint32_t kcas_hang_step(kcas_caller *caller);
uint32_t kcas_signalled(kcas_caller *caller);
uint32_t kcas_leave(kcas_caller *caller);

/* ---- what is plain C over these calls ---- */

/* The version of the library, as KCAS_VERSION is that of this header. */
const char *kcas_version(void);

/* The name of an answer, as "KCAS_LATER"; "KCAS_?" for a number that no call answers. */
const char *kcas_answer_name(uint32_t answer);

/* Which of the operations that kcas_try or kcas_view answered KCAS_BAD_OPS is the first that is wrong, from 0 on; where each is right, `count`: then
 * there are none, more than 16, or more than there is room for replies. It does nothing, but tries, each
 * time together with a check that never holds: so kcas_reads has nothing of use behind it, and bits may be added to *wakes. */
size_t kcas_bad_op(kcas_caller *caller, const kcas_op *ops, size_t count, uint64_t *wakes);

#ifdef __cplusplus
}
#endif

#include <stdlib.h>
#include <time.h>

#ifdef __linux__
#include <linux/futex.h>
#include <sys/syscall.h>
#include <unistd.h>
#ifndef __cplusplus
long syscall(long number, ...);
#endif
#endif

#ifdef __cplusplus
#include <atomic>
typedef std::atomic<uint32_t> kcas_word;
static inline uint32_t kcas_load(kcas_word *word) { return word->load(); }
static inline uint32_t kcas_plus(kcas_word *word, uint32_t n) { return word->fetch_add(n); }
static inline int kcas_take(kcas_word *word) {
    uint32_t free = 0;
    return word->compare_exchange_strong(free, 1);
}
static inline void kcas_leave_off(kcas_word *word) { word->store(0); }
#else
#include <stdatomic.h>
typedef _Atomic uint32_t kcas_word;
static inline uint32_t kcas_load(kcas_word *word) { return atomic_load(word); }
static inline uint32_t kcas_plus(kcas_word *word, uint32_t n) { return atomic_fetch_add(word, n); }
static inline int kcas_take(kcas_word *word) {
    uint32_t free = 0;
    return atomic_compare_exchange_strong(word, &free, 1);
}
static inline void kcas_leave_off(kcas_word *word) { atomic_store(word, 0); }
#endif

/* The library isn't built with the sanitizers, so a program that is tells them here what its tries do: each comes behind those before
 * it (the thread sanitizer; more than holds, so it may miss a race and calls none that there isn't), and has written its replies (the
 * memory sanitizer). It knows nothing of tries that are made by kcas_try itself. */
#ifndef __has_feature
#define KCAS_HAS(feature) 0
#else
#define KCAS_HAS(feature) __has_feature(feature)
#endif
#if defined(__SANITIZE_THREAD__) || KCAS_HAS(thread_sanitizer)
#include <sanitizer/tsan_interface.h>
static inline void kcas_before(void) { __tsan_release((void *)(uintptr_t)&kcas_try); }
static inline void kcas_behind(void) { __tsan_acquire((void *)(uintptr_t)&kcas_try); }
#else
static inline void kcas_before(void) {}
static inline void kcas_behind(void) {}
#endif
#if KCAS_HAS(memory_sanitizer)
#include <sanitizer/msan_interface.h>
static inline void kcas_written(const void *at, size_t size) { __msan_unpoison(at, size); }
#else
static inline void kcas_written(const void *at, size_t size) {
    (void)at;
    (void)size;
}
#endif

#ifdef KCAS_CHECKED
/* A second thread in a handle ends the program. */
static inline void kcas_enter(kcas_caller *caller) {
    if (__atomic_exchange_n(&caller->busy, 1, __ATOMIC_ACQUIRE)) abort();
}
static inline void kcas_exit(kcas_caller *caller) { __atomic_store_n(&caller->busy, 0, __ATOMIC_RELEASE); }
#else
static inline void kcas_enter(kcas_caller *caller) { (void)caller; }
static inline void kcas_exit(kcas_caller *caller) { (void)caller; }
#endif

/* Structures. */
static inline kcas_object kcas_object_of(uint32_t kind, uint32_t base, uint32_t capacity, uint32_t buckets) {
    kcas_object object;
    object.kind = kind;
    object.base = base;
    object.capacity = capacity;
    object.buckets = buckets;
    return object;
}
static inline kcas_object kcas_loc(uint32_t location) { return kcas_object_of(KCAS_LOC, location, 0, 0); }
static inline kcas_object kcas_stack(uint32_t base, uint32_t capacity) { return kcas_object_of(KCAS_STACK, base, capacity, 0); }
static inline kcas_object kcas_queue(uint32_t base, uint32_t capacity) { return kcas_object_of(KCAS_QUEUE, base, capacity, 0); }
static inline kcas_object kcas_table(uint32_t base, uint32_t buckets, uint32_t capacity) { return kcas_object_of(KCAS_TABLE, base, capacity, buckets); }
static inline kcas_object kcas_grow(uint32_t base, uint32_t capacity) { return kcas_object_of(KCAS_GROW, base, capacity, 0); }
static inline kcas_object kcas_cache(uint32_t base, uint32_t buckets, uint32_t capacity) { return kcas_object_of(KCAS_CACHE, base, capacity, buckets); }
static inline kcas_object kcas_mvar(uint32_t base) { return kcas_object_of(KCAS_MVAR, base, 0, 0); }
static inline kcas_object kcas_promise(uint32_t base) { return kcas_object_of(KCAS_PROMISE, base, 0, 0); }
static inline kcas_object kcas_acc(uint32_t base, uint32_t cells) { return kcas_object_of(KCAS_ACC, base, cells, 0); }

/* Operations. */
static inline kcas_op kcas_do(kcas_object on, uint32_t verb, uint32_t a, uint32_t b) {
    kcas_op op;
    op.verb = verb;
    op.mark = KCAS_NEXT;
    op.on = on;
    op.a = a;
    op.b = b;
    return op;
}
static inline kcas_op kcas_at(uint32_t location, uint32_t verb, uint32_t a, uint32_t b) { return kcas_do(kcas_loc(location), verb, a, b); }
static inline kcas_op kcas_check(uint32_t location, uint32_t relation, uint32_t value) { return kcas_at(location, KCAS_CHECK, relation, value); }
static inline kcas_op kcas_say(uint32_t value) { return kcas_at(0, KCAS_SAY, value, 0); }
/* It begins the next alternative. One that is fed can't: that is KCAS_BAD_OPS. */
static inline kcas_op kcas_or(kcas_op op) {
    if (op.mark == KCAS_NEXT) op.mark = KCAS_OR;
    if (op.mark != KCAS_OR) op.mark = KCAS_NO_MARK;
    return op;
}
static inline uint32_t kcas_fed_mark(uint32_t mark, uint32_t by) {
    if (mark == KCAS_NEXT || mark == by) return by;
    if (mark == KCAS_FED_A || mark == KCAS_FED_B || mark == KCAS_FED_BOTH) return KCAS_FED_BOTH;
    return KCAS_NO_MARK;
}
/* Its number `a`, or `b`, is what that operation of its alternative replied. KCAS_BAD_OPS for one that begins an alternative, before which there is
 * none; and by kcas_fed_a for a KCAS_SWAP, KCAS_UPDATE, KCAS_MODIFY or KCAS_CHECK, whose `a` is no value and no key. */
static inline kcas_op kcas_fed_a(kcas_op op, uint32_t operation) {
    op.mark = kcas_fed_mark(op.mark, KCAS_FED_A);
    op.a = operation;
    return op;
}
static inline kcas_op kcas_fed_b(kcas_op op, uint32_t operation) {
    op.mark = kcas_fed_mark(op.mark, KCAS_FED_B);
    op.b = operation;
    return op;
}

/* Where threads sleep that wait for a change, each at its caller's number. One for a store, all zero at first. `ended` is not 0 behind kcas_end. */
typedef struct kcas_bell {
    kcas_word seats[KCAS_MOST_CALLERS];
    kcas_word ended;
} kcas_bell;

/* What a commit seldom comes to lies out of its line. */
#ifdef __GNUC__
#define KCAS_SELDOM static __attribute__((cold, noinline, unused))
#else
#define KCAS_SELDOM static inline
#endif

/* What the monotonic clock shows. */
KCAS_SELDOM struct timespec kcas_now(void) {
    struct timespec now = { 0, 0 };
#ifdef __linux__
    syscall(SYS_clock_gettime, 1 /* CLOCK_MONOTONIC, which C11 alone doesn't name */, &now);
#else
    clock_gettime(CLOCK_MONOTONIC, &now);
#endif
    return now;
}
/* A deadline: what the monotonic clock will show in so many milliseconds. */
KCAS_SELDOM struct timespec kcas_in(uint32_t milliseconds) {
    struct timespec then = kcas_now();
    then.tv_sec += milliseconds / 1000;
    then.tv_nsec += milliseconds % 1000 * 1000000;
    if (then.tv_nsec >= 1000000000) {
        then.tv_sec++;
        then.tv_nsec -= 1000000000;
    }
    return then;
}
/* Whether a deadline has come; NULL is one that never does. */
KCAS_SELDOM int kcas_is_past(const struct timespec *until) {
    if (!until) return 0;
    struct timespec now = kcas_now();
    return now.tv_sec != until->tv_sec ? now.tv_sec > until->tv_sec : now.tv_nsec >= until->tv_nsec;
}

/* Sleeps while the word has the value that was seen, until the deadline at most. It may return for no cause. */
static inline void kcas_sleep(kcas_word *word, uint32_t seen, const struct timespec *until) {
#ifdef __linux__
    syscall(SYS_futex, (uint32_t *)word, FUTEX_WAIT_BITSET_PRIVATE, seen, until, (void *)0, FUTEX_BITSET_MATCH_ANY);
#else
    (void)word;
    (void)seen;
    (void)until;
#endif
}
KCAS_SELDOM void kcas_rouse(kcas_word *word) {
    kcas_plus(word, 1);
#ifdef __linux__
    syscall(SYS_futex, (uint32_t *)word, FUTEX_WAKE_PRIVATE, INT32_MAX, (void *)0, (void *)0, 0);
#endif
}
static inline void kcas_pause(void) {
#if defined(__x86_64__) || defined(__i386__)
    __builtin_ia32_pause();
#elif defined(__aarch64__)
    __asm__ volatile("yield");
#endif
}

KCAS_SELDOM void kcas_rouse_each(kcas_bell *bell, uint64_t wakes) {
    for (uint32_t i = 0; wakes != 0; wakes >>= 1, i++) {
        if (wakes & 1) kcas_rouse(&bell->seats[i]);
    }
}
/* Wakes those whose hangs a try has ended. */
static inline void kcas_wake(kcas_bell *bell, uint64_t wakes) {
    if (wakes != 0 && bell) kcas_rouse_each(bell, wakes);
}
/* Ends all waits by this bell, those that there are and those to come: what would wait by it is answered KCAS_CLOSED from now on. What
 * needn't wait is done as before, so those who waited may still clear up. Then join them, and close the handles. */
KCAS_SELDOM void kcas_end(kcas_bell *bell) {
    kcas_plus(&bell->ended, 1);
    for (uint32_t i = 0; i < KCAS_MOST_CALLERS; i++) kcas_rouse(&bell->seats[i]);
}
/* Lets others go on before the next try, longer each time. */
static inline void kcas_back_off(uint32_t *pauses) {
    for (uint32_t i = 0; i < *pauses; i++) kcas_pause();
    if (*pauses < 1024) *pauses *= 2;
}
/* Whether another try may answer otherwise at once. */
static inline int kcas_missed(uint32_t answer) { return answer == KCAS_LOST || answer == KCAS_BUSY || answer == KCAS_CHANGED; }

/* One try, and whose hangs it ended are woken. */
static inline uint32_t kcas_try_once(kcas_bell *bell, kcas_caller *caller, const kcas_op *ops, size_t count, kcas_reply *replies, size_t room) {
    uint64_t wakes = 0;
    kcas_before();
    uint32_t answer = kcas_try(caller, ops, count, replies, room, &wakes);
    kcas_behind();
    if (answer == KCAS_DONE) kcas_written(replies, count * sizeof *replies);
    kcas_wake(bell, wakes);
    return answer;
}
static inline uint32_t kcas_add_once(kcas_bell *bell, kcas_caller *caller, uint32_t location, uint32_t number, uint32_t *before) {
    uint64_t wakes = 0;
    kcas_before();
    uint32_t answer = kcas_add(caller, location, number, before, &wakes);
    kcas_behind();
    if (answer == KCAS_DONE) kcas_written(before, sizeof *before);
    kcas_wake(bell, wakes);
    return answer;
}

/* The tries behind a first one that wasn't done: none where it was neither lost nor given up. */
KCAS_SELDOM uint32_t kcas_try_on(kcas_bell *bell, kcas_caller *caller, const kcas_op *ops, size_t count, kcas_reply *replies, size_t room, uint32_t answer) {
    for (uint32_t pauses = 16; kcas_missed(answer);) {
        kcas_back_off(&pauses);
        answer = kcas_try_once(bell, caller, ops, count, replies, room);
    }
    return answer;
}
KCAS_SELDOM uint32_t kcas_add_on(kcas_bell *bell, kcas_caller *caller, uint32_t location, uint32_t number, uint32_t *before, uint32_t answer) {
    for (uint32_t pauses = 16; kcas_missed(answer);) {
        kcas_back_off(&pauses);
        answer = kcas_add_once(bell, caller, location, number, before);
    }
    return answer;
}

/* Tries until a try was neither lost nor given up, and wakes those who wait for what it has changed: every answer of kcas_try but KCAS_LOST and
 * KCAS_BUSY. The bell may be NULL where nobody waits. */
static inline uint32_t kcas_commit(kcas_bell *bell, kcas_caller *caller, const kcas_op *ops, size_t count, kcas_reply *replies, size_t room) {
    kcas_enter(caller);
    uint32_t answer = kcas_try_once(bell, caller, ops, count, replies, room);
    if (answer != KCAS_DONE) answer = kcas_try_on(bell, caller, ops, count, replies, room, answer);
    kcas_exit(caller);
    return answer;
}

/* The same of kcas_add: KCAS_DONE, with the value before, unless the store is worn or the call is wrong. */
static inline uint32_t kcas_commit_add(kcas_bell *bell, kcas_caller *caller, uint32_t location, uint32_t number, uint32_t *before) {
    kcas_enter(caller);
    uint32_t answer = kcas_add_once(bell, caller, location, number, before);
    if (answer != KCAS_DONE) answer = kcas_add_on(bell, caller, location, number, before, answer);
    kcas_exit(caller);
    return answer;
}

/* Waits for a change of what the last try read, by a hang of the store itself, until the deadline at most; NULL is one that never comes. */
static inline void kcas_hang_until(kcas_bell *bell, kcas_caller *caller, const struct timespec *until) {
    kcas_enter(caller);
    uint32_t step = kcas_hang(caller), number = kcas_number(caller);
    while (step == KCAS_GOING) step = kcas_hang_step(caller);
    if (step == KCAS_HUNG) {
        for (;;) {
            uint32_t seen = kcas_load(&bell->seats[number]);
            if (kcas_signalled(caller) != KCAS_QUIET || kcas_load(&bell->ended) || kcas_is_past(until)) break;
            kcas_sleep(&bell->seats[number], seen, until);
        }
        step = kcas_leave(caller);
        while (step == KCAS_LEAVING) step = kcas_hang_step(caller);
    }
    kcas_exit(caller);
}

/* As kcas_commit, and it waits where it would have to, until a deadline by the monotonic clock (kcas_in makes one): KCAS_LATER only behind it. It
 * tries at least once, and again at each change of what it read. NULL for `until`: it waits on. NULL for the bell: it doesn't wait. KCAS_CLOSED
 * where it would wait and the bell has ended. */
static inline uint32_t kcas_commit_until(kcas_bell *bell, kcas_caller *caller, const kcas_op *ops, size_t count, kcas_reply *replies, size_t room, const struct timespec *until) {
    uint32_t answer = kcas_commit(bell, caller, ops, count, replies, room);
    while (bell && answer == KCAS_LATER && !kcas_is_past(until)) {
        if (kcas_load(&bell->ended)) return KCAS_CLOSED;
        kcas_hang_until(bell, caller, until);
        answer = kcas_commit(bell, caller, ops, count, replies, room);
    }
    return answer;
}
/* The same without a deadline: with a bell never KCAS_LATER. */
static inline uint32_t kcas_commit_waiting(kcas_bell *bell, kcas_caller *caller, const kcas_op *ops, size_t count, kcas_reply *replies, size_t room) {
    return kcas_commit_until(bell, caller, ops, count, replies, room, NULL);
}

/* ---- views ---- */

static inline uint32_t kcas_view_once(kcas_caller *caller, const kcas_op *ops, size_t count, kcas_reply *replies, size_t room) {
    uint32_t answer = kcas_view(caller, ops, count, replies, room);
    kcas_behind();
    if (answer == KCAS_DONE) kcas_written(replies, count * sizeof *replies);
    return answer;
}

/* Whether an operation puts nothing, whatever stands there. */
KCAS_SELDOM int kcas_only_reads(const kcas_op *op) {
    switch (op->verb) {
    case KCAS_SAY:
    case KCAS_GET:
    case KCAS_CHECK:
    case KCAS_DIFFERS:
    case KCAS_TOP:
    case KCAS_FRONT:
    case KCAS_FIND:
    case KCAS_MPEEK:
    case KCAS_AWAIT:
    case KCAS_RESOLVED:
    case KCAS_TOTAL:
    case KCAS_LEN:
        return 1;
    default:
        return 0;
    }
}
/* The views behind a first one that found a change. A view helps nobody who stands in its way; a commit does, so operations that only read are
 * committed behind eight views. Others end behind 64. */
KCAS_SELDOM uint32_t kcas_look_on(kcas_bell *bell, kcas_caller *caller, const kcas_op *ops, size_t count, kcas_reply *replies, size_t room, uint32_t answer) {
    uint32_t pauses = 16;
    int reads = 1;
    for (size_t i = 0; i < count; i++) reads = reads && kcas_only_reads(&ops[i]);
    for (uint32_t views = 1; kcas_missed(answer) && views < (reads ? 8 : 64); views++) {
        kcas_back_off(&pauses);
        answer = kcas_view_once(caller, ops, count, replies, room);
    }
    if (!reads) return kcas_missed(answer) ? (uint32_t)KCAS_CHANGED : answer;
    for (; kcas_missed(answer); kcas_back_off(&pauses)) answer = kcas_try_once(bell, caller, ops, count, replies, room);
    return answer;
}
/* Views until what was read has not changed meanwhile: every answer of kcas_view but KCAS_BUSY. It puts nothing.
 *
 * Where all operations are such as never put (KCAS_GET, KCAS_FRONT, KCAS_LEN ..), it commits them behind eight views in vain. Then they take a
 * descriptor and have an entry as other commits do, and KCAS_POOL_WORN is an answer too, but KCAS_CHANGED is none. Where one may put (a KCAS_DEQ of an
 * empty queue is viewed) it never commits, and ends with KCAS_CHANGED behind 64 views in vain, as it does where another caller has stopped amid its
 * try: look again, or commit. The bell is for those whom a commit wakes; it may be NULL where nobody waits. */
static inline uint32_t kcas_look(kcas_bell *bell, kcas_caller *caller, const kcas_op *ops, size_t count, kcas_reply *replies, size_t room) {
    kcas_enter(caller);
    uint32_t answer = kcas_view_once(caller, ops, count, replies, room);
    if (kcas_missed(answer)) answer = kcas_look_on(bell, caller, ops, count, replies, room, answer);
    kcas_exit(caller);
    return answer;
}

/* How much of the life of these locations is gone: at KCAS_DONE *gone gets the greatest version among them, of KCAS_LAST_VERSION; else it stays.
 * KCAS_CLOSED; KCAS_NOT_NOW for a caller that hangs; KCAS_BAD_OPS where one lies outside, or there are none. Each put of a
 * location makes its version one more, and behind the last one KCAS_WORN is answered. A location that is put a thousand times a second lasts
 * for 24 days, one that is put ten million times a second for three and a half minutes. */
KCAS_SELDOM uint32_t kcas_life(kcas_caller *caller, uint32_t first, uint32_t count, uint32_t *gone) {
    uint32_t most = 0, value = 0, version = 0, answer = KCAS_BAD_OPS;
    kcas_enter(caller);
    for (uint32_t i = 0; i < count; i++) {
        while ((answer = kcas_read(caller, first + i, &value, &version)) == KCAS_BUSY) kcas_pause();
        if (answer != KCAS_DONE) break;
        if (version > most) most = version;
    }
    kcas_exit(caller);
    if (answer == KCAS_DONE) *gone = most;
    return answer;
}

/* ---- callers that come and go ---- */

/* A place for one caller, on lines of a cache of its own. */
typedef struct kcas_place {
    kcas_caller caller;
    kcas_word taken;
    char apart[128 - sizeof(kcas_caller) - sizeof(kcas_word)];
} kcas_place;

/* The callers of a store that many threads use, each for a while: one that comes late takes a caller that another has left, with its number. All
 * zero at first. */
typedef struct kcas_crew {
    kcas_place places[KCAS_MOST_CALLERS];
    uint32_t count;
} kcas_crew;

/* Opens a store for so many callers at a time: as kcas_open. */
KCAS_SELDOM uint32_t kcas_crew_open(kcas_crew *crew, const uint32_t *values, size_t count, uint32_t callers) {
    kcas_caller opened[KCAS_MOST_CALLERS];
    if (callers == 0 || callers > KCAS_MOST_CALLERS) return KCAS_BAD_SIZE;
    if (crew->count) return KCAS_IS_OPEN;
    for (uint32_t i = 0; i < callers; i++) opened[i].held = opened[i].busy = 0, opened[i].at = NULL;
    uint32_t answer = kcas_open(values, count, opened, callers);
    if (answer != KCAS_DONE) return answer;
    for (uint32_t i = 0; i < callers; i++) crew->places[i].caller = opened[i];
    crew->count = callers;
    return KCAS_DONE;
}
/* A caller for this thread, until it leaves; NULL where all are taken. */
KCAS_SELDOM kcas_caller *kcas_come(kcas_crew *crew) {
    for (uint32_t i = 0; i < crew->count; i++) {
        if (kcas_load(&crew->places[i].taken) == 0 && kcas_take(&crew->places[i].taken)) return &crew->places[i].caller;
    }
    return NULL;
}
/* Gives a caller back that kcas_come gave; no call runs on it, nor does it hang. */
KCAS_SELDOM void kcas_go(kcas_crew *crew, kcas_caller *caller) {
    for (uint32_t i = 0; i < crew->count; i++) {
        if (&crew->places[i].caller == caller) kcas_leave_off(&crew->places[i].taken);
    }
}
/* Closes all callers, where all have gone: KCAS_DONE; else KCAS_NOT_NOW, and nothing is closed. Nobody may come meanwhile. */
KCAS_SELDOM uint32_t kcas_crew_close(kcas_crew *crew) {
    for (uint32_t i = 0; i < crew->count; i++) {
        if (kcas_load(&crew->places[i].taken)) return KCAS_NOT_NOW;
    }
    for (uint32_t i = 0; i < crew->count; i++) kcas_close(&crew->places[i].caller);
    crew->count = 0;
    return KCAS_DONE;
}

/* ---- transactions whose next step depends on what they read ---- */

/* An operation that stands so many places further behind: it names the same ones. What names none before it still does. */
static inline kcas_op kcas_moved(kcas_op op, size_t place, uint32_t by) {
    if ((op.mark == KCAS_FED_A || op.mark == KCAS_FED_BOTH)) op.a = op.a < place ? op.a + by : UINT32_MAX;
    if ((op.mark == KCAS_FED_B || op.mark == KCAS_FED_BOTH)) op.b = op.b < place ? op.b + by : UINT32_MAX;
    return op;
}

/* Commits these operations at a moment at which all that the last try read has the values that it had then; so the operations of that try would be
 * answered the same. KCAS_LATER where something has changed: then look again, and compute anew. One looks by kcas_commit or the like,
 * at structures too, computes, and acts by this: not behind a kcas_try or kcas_view that was answered KCAS_BUSY, nor a kcas_look answered KCAS_CHANGED,
 * for then what kcas_reads tells, and this compares, may be of an earlier one. KCAS_BAD_OPS where reads and operations are more than 16 together, or
 * there is an alternative among them. */
static inline uint32_t kcas_commit_as_seen(kcas_bell *bell, kcas_caller *caller, const kcas_op *ops, size_t count, kcas_reply *replies, size_t room) {
    kcas_op all[KCAS_MOST_OPS];
    kcas_reply told[KCAS_MOST_OPS];
    kcas_seen seen[KCAS_MOST_OPS + 1];
    size_t reads = kcas_reads(caller, seen, KCAS_MOST_OPS + 1);
    kcas_written(seen, sizeof seen);
    if (reads > KCAS_MOST_OPS || count > KCAS_MOST_OPS - reads || count > room) return KCAS_BAD_OPS;
    for (size_t i = 0; i < reads; i++) all[i] = kcas_check(seen[i].location, KCAS_EQ, seen[i].value);
    for (size_t i = 0; i < count; i++) {
        if (ops[i].mark == KCAS_OR) return KCAS_BAD_OPS;
        all[reads + i] = kcas_moved(ops[i], i, (uint32_t)reads);
    }
    uint32_t answer = kcas_commit(bell, caller, all, reads + count, told, KCAS_MOST_OPS);
    for (size_t i = 0; i < count && answer == KCAS_DONE; i++) replies[i] = told[reads + i];
    return answer;
}

/* What a body has read and is to write: up to 16 locations read and written together. */
typedef struct kcas_log {
    kcas_op ops[KCAS_MOST_OPS];
    uint32_t count;
    uint32_t failed; /* an answer that ends it, or 0 */
    kcas_caller *caller;
} kcas_log;

/* The value of a location: what the body wrote there, or read there before, or what stands there now. 0 once the log has
 * failed. The values of two locations may be of two moments; then the body runs again. */
static inline uint32_t kcas_read_in(kcas_log *log, uint32_t location) {
    uint32_t value = 0, version, answer;
    for (uint32_t i = log->count; i > 0; i--) {
        const kcas_op *op = &log->ops[i - 1];
        if (op->on.base == location) return op->verb == KCAS_SET ? op->a : op->b;
    }
    if (log->failed) return 0;
    if (log->count == KCAS_MOST_OPS) {
        log->failed = KCAS_BAD_OPS;
        return 0;
    }
    kcas_enter(log->caller);
    while ((answer = kcas_read(log->caller, location, &value, &version)) == KCAS_BUSY) kcas_pause();
    kcas_behind();
    kcas_exit(log->caller);
    if (answer != KCAS_DONE) {
        log->failed = answer;
        return 0;
    }
    log->ops[log->count++] = kcas_check(location, KCAS_EQ, value);
    return value;
}

static inline void kcas_write(kcas_log *log, uint32_t location, uint32_t value) {
    for (uint32_t i = 0; i < log->count; i++) {
        if (log->ops[i].verb == KCAS_SET && log->ops[i].on.base == location) {
            log->ops[i].a = value;
            return;
        }
    }
    if (log->count == KCAS_MOST_OPS) {
        log->failed = KCAS_BAD_OPS;
        return;
    }
    log->ops[log->count++] = kcas_at(location, KCAS_SET, value, 0);
}

/* What a body answers. */
enum { KCAS_COMMIT = 0, KCAS_WAIT = 1, KCAS_STOP = 2 };

/* Whether all that the body read still stands, at one moment: KCAS_DONE, or KCAS_LATER. */
static inline uint32_t kcas_still(kcas_bell *bell, kcas_log *log) {
    kcas_reply replies[KCAS_MOST_OPS];
    uint32_t reads = 0;
    for (uint32_t i = 0; i < log->count; i++) {
        if (log->ops[i].verb == KCAS_CHECK) log->ops[reads++] = log->ops[i];
    }
    log->count = reads;
    if (reads == 0) return KCAS_DONE;
    return kcas_commit(bell, log->caller, log->ops, reads, replies, KCAS_MOST_OPS);
}

/* The same, and it waits until one of them has changed where all still stands; KCAS_CLOSED where it would and the bell has ended. */
static inline uint32_t kcas_wait_in(kcas_bell *bell, kcas_log *log) {
    uint32_t answer = kcas_still(bell, log);
    if (log->count == 0) return KCAS_BAD_OPS;
    if (answer != KCAS_DONE) return answer;
    if (kcas_load(&bell->ended)) return KCAS_CLOSED;
    kcas_hang_until(bell, log->caller, NULL);
    return answer;
}

/* Runs the body until what it read stood at one moment, and then makes its writes at that moment: KCAS_DONE. The body has no
 * effects but by kcas_write, may run many times, and ends by itself on any values. Where it answers KCAS_WAIT it runs again
 * once something of what it read has changed; where KCAS_STOP, or KCAS_WAIT without a bell, nothing is written: KCAS_LATER. KCAS_CLOSED where it
 * answers KCAS_WAIT by what stood at one moment, and the bell has ended. KCAS_BAD_OPS for more than 16 reads and writes, a location outside, a wait on
 * nothing, or another wish than these three; or as kcas_try. */
static inline uint32_t kcas_run(kcas_bell *bell, kcas_caller *caller, uint32_t (*body)(kcas_log *log, void *with), void *with) {
    for (;;) {
        kcas_log log;
        kcas_reply replies[KCAS_MOST_OPS];
        log.count = log.failed = 0;
        log.caller = caller;
        uint32_t wish = body(&log, with), answer;
        if (log.failed) return log.failed;
        if (wish > KCAS_STOP) return KCAS_BAD_OPS;
        if (wish == KCAS_WAIT && bell) {
            answer = kcas_wait_in(bell, &log);
            if (answer != KCAS_DONE && answer != KCAS_LATER) return answer;
        } else if (wish != KCAS_COMMIT) {
            answer = kcas_still(bell, &log);
            if (answer != KCAS_LATER) return answer == KCAS_DONE ? (uint32_t)KCAS_LATER : answer;
        } else {
            if (log.count == 0) return KCAS_DONE;
            answer = kcas_commit(bell, caller, log.ops, log.count, replies, KCAS_MOST_OPS);
            if (answer != KCAS_LATER) return answer;
        }
    }
}

#endif
