// Two workers take jobs from two queues, the urgent one first. Each takes a job, keeps its result in a cache and counts it, in one
// commit, and an auditor sees at every hundred that no job is lost on the way.
#include <kcas.hpp>

#include <cstdio>
#include <cstdlib>
#include <thread>

namespace {

constexpr std::uint32_t jobs = 5000, plain = 0, urgent = 1, stop = 2;

struct desk {
    kcas::object queues[2], results, entered, done;
};

// Where a queue keeps the number of its items: the second of its cells.
std::uint32_t length_of(const kcas::object &queue) { return queue.base + 1; }

void work(kcas::caller &caller, const desk &on) {
    for (;;) {
        kcas::transaction look;
        look.add(kcas_say(urgent)).add(kcas_check(length_of(on.queues[urgent]), KCAS_GT, 0)).add(on.queues[urgent], KCAS_FRONT);
        look.or_else(kcas_say(plain)).add(kcas_check(length_of(on.queues[plain]), KCAS_GT, 0)).add(on.queues[plain], KCAS_FRONT);
        look.or_else(kcas_say(stop)).add(kcas_check(on.done.base, KCAS_EQ, jobs));
        caller.commit_waiting(look);
        std::uint32_t which = look[0].value, job = look[2].value;
        if (which == stop) return;
        // Where the other worker was faster, this does nothing, and the loop looks again.
        kcas::transaction take;
        take.add(on.queues[which], KCAS_DEQ).add(on.results, KCAS_CPUT, job, job * job).add(on.done, KCAS_INCR);
        caller.commit_as_seen(take);
    }
}

void audit(kcas::caller &caller, const desk &on) {
    for (std::uint32_t next = 100; next <= jobs; next += 100) {
        kcas::transaction now;
        now.add(kcas_check(on.done.base, KCAS_GE, next)).add(on.entered, KCAS_GET).add(on.done, KCAS_GET);
        now.add(on.queues[plain], KCAS_LEN).add(on.queues[urgent], KCAS_LEN);
        caller.commit_waiting(now);
        if (now[1].value != now[2].value + now[3].value + now[4].value) std::abort();
    }
}

// Enters a job where its queue has room.
void enter(kcas::caller &caller, const desk &on, const kcas::object &queue, std::uint32_t job) {
    kcas::transaction t;
    t.add(kcas_check(length_of(queue), KCAS_LT, queue.capacity)).add(queue, KCAS_ENQ, job).add(on.entered, KCAS_INCR);
    caller.commit_waiting(t);
}

}  // namespace

int main() {
    kcas::layout layout;
    desk on{{layout.add(kcas_queue(0, 32)), layout.add(kcas_queue(0, 8))}, layout.add(kcas_cache(0, 8, 16)), layout.add(kcas_loc(0)), layout.add(kcas_loc(0))};
    std::vector<kcas::caller> callers = kcas::open(layout.values(), 4);
    std::thread others[] = {
        std::thread([&] { work(callers[1], on); }),
        std::thread([&] { work(callers[2], on); }),
        std::thread([&] { audit(callers[3], on); }),
    };
    for (std::uint32_t job = 0; job < jobs; job++) enter(callers[0], on, on.queues[job % 10 ? plain : urgent], job);
    for (std::thread &other : others) other.join();
    std::printf("%u jobs done, the last %u results are kept\n", callers[0].commit(on.done, KCAS_GET).value, callers[0].commit(on.results, KCAS_LEN).value);
}
