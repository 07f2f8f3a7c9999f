// Workers take jobs from a queue, and wait where there is none. A job's answer is kept in a cache, so that the same job
// isn't worked on again while its key stays there.
#include <kcas.hpp>

#include <cstdio>
#include <functional>
#include <thread>

namespace {

constexpr std::uint32_t stop = 0xffffffff;

std::uint32_t square_root(std::uint32_t n) {
    std::uint32_t root = 0;
    while ((root + 1) * (root + 1) <= n) root++;
    return root;
}

struct desk {
    kcas::object jobs, cache, worked, answered;
};

// Takes a job, with the answer that the cache has for it, if any.
void work(kcas::caller caller, const desk &on) {
    for (;;) {
        kcas::transaction next;
        next.add(on.jobs, KCAS_DEQW);
        caller.commit_waiting(next);
        std::uint32_t job = next[0].value;
        if (job == stop) return;
        if (caller.commit(on.cache, KCAS_CGET, job).kind == KCAS_EMPTY) {
            std::uint32_t answer = square_root(job);
            kcas::transaction keep;
            keep.add(on.cache, KCAS_CPUT, job, answer).add(on.worked, KCAS_INCR);
            caller.commit(keep);
        }
        caller.add(on.answered.base, 1);
    }
}

// Where the queue is full it tries again.
void enter(kcas::caller &caller, const kcas::object &jobs, std::uint32_t job) {
    while (caller.commit(jobs, KCAS_ENQ, job).kind == KCAS_FULL) std::this_thread::yield();
}

}  // namespace

int main() {
    kcas::layout layout;
    desk on{layout.add(kcas_queue(0, 64)), layout.add(kcas_cache(0, 16, 32)), layout.add(kcas_loc(0)), layout.add(kcas_loc(0))};
    std::vector<kcas::caller> callers = kcas::open(layout.values(), 4);
    kcas::caller foreman = std::move(callers.back());
    callers.pop_back();
    std::vector<std::thread> workers;
    for (kcas::caller &caller : callers) workers.emplace_back(work, std::move(caller), std::cref(on));
    for (std::uint32_t i = 0; i < 3000; i++) enter(foreman, on.jobs, i % 40 * 1000);
    for (std::size_t i = 0; i < workers.size(); i++) enter(foreman, on.jobs, stop);
    for (std::thread &worker : workers) worker.join();
    std::uint32_t answered = foreman.commit(on.answered, KCAS_GET).value, worked = foreman.commit(on.worked, KCAS_GET).value;
    std::printf("%u jobs answered, some of them by the cache: %s\n", answered, worked < answered ? "yes" : "no");
    return answered == 3000 ? 0 : 1;
}
