// The mixes by the library for C. Each thread takes a handle of the store at its first call.
#include "../../bench/mixes/rounds.hpp"
#include <atomic>
#include <kcas.h>

class Store {
public:
    static constexpr bool waits = true;

    Store() {
        std::array<uint32_t, cells + capacity + 2> values{};
        kcas_opening(&ring, values.data() + cells, capacity + 2);
        std::array<kcas_caller, most_threads + 1> opened{};
        if (kcas_open(values.data(), values.size(), opened.data(), opened.size()) != KCAS_DONE) exit(1);
        for (size_t i = 0; i < opened.size(); i++) callers[i].handle = opened[i];
    }

    ~Store() {
        for (auto &caller : callers) kcas_close(&caller.handle);
    }

    void add(uint32_t place, uint32_t amount) {
        kcas_op op = kcas_at(place, KCAS_ADD, amount, 0);
        kcas_reply reply;
        kcas_commit(&bell, mine(), &op, 1, &reply, 1);
    }

    void transfer(uint32_t to, uint32_t from, uint32_t amount) {
        kcas_op ops[] = {kcas_at(to, KCAS_ADD, amount, 0), kcas_at(from, KCAS_ADD, -amount, 0)};
        kcas_reply replies[2];
        kcas_commit(&bell, mine(), ops, 2, replies, 2);
    }

    // What it adds depends on what it reads.
    void add_eight(uint32_t own) {
        auto body = [](kcas_log *log, void *with) -> uint32_t {
            uint32_t at = *static_cast<uint32_t *>(with), sum = 0;
            for (uint32_t place = 0; place < locations; place++) sum += kcas_read_in(log, place);
            kcas_write(log, at, kcas_read_in(log, at) + sum);
            return KCAS_COMMIT;
        };
        kcas_run(&bell, mine(), body, &own);
    }

    // The library for C has no views: a find is a commit.
    uint32_t find(uint32_t place) {
        auto body = [](kcas_log *log, void *with) -> uint32_t {
            uint32_t *at = static_cast<uint32_t *>(with);
            *at = kcas_read_in(log, kcas_read_in(log, *at));
            return KCAS_COMMIT;
        };
        uint32_t at = place;
        kcas_run(&bell, mine(), body, &at);
        return at;
    }

    void enqueue(uint32_t item) {
        kcas_op ops[] = {kcas_check(ring.base + 1, KCAS_LT, capacity), kcas_do(ring, KCAS_ENQ, item, 0)};
        kcas_reply replies[2];
        kcas_commit_waiting(&bell, mine(), ops, 2, replies, 2);
    }

    uint32_t dequeue() {
        kcas_op op = kcas_do(ring, KCAS_DEQW, 0, 0);
        kcas_reply reply;
        kcas_commit_waiting(&bell, mine(), &op, 1, &reply, 1);
        return reply.value;
    }

    void hand_over(uint32_t expected) {
        kcas_op ops[] = {kcas_check(0, KCAS_EQ, expected), kcas_at(0, KCAS_SET, expected + 1, 0)};
        kcas_reply replies[2];
        kcas_commit_waiting(&bell, mine(), ops, 2, replies, 2);
    }

    Values values() {
        Values all;
        uint32_t version;
        for (uint32_t place = 0; place < cells; place++) kcas_read(mine(), place, &all[place], &version);
        return all;
    }

private:
    // Each call writes to its handle, so handles of two threads lie in no line of a cache together.
    struct alignas(128) Alone {
        kcas_caller handle = KCAS_CALLER_INIT;
    };

    kcas_caller *mine() {
        thread_local Store *of = nullptr;
        thread_local kcas_caller *handle = nullptr;
        if (of != this) {
            of = this;
            handle = &callers[taken++].handle;
        }
        return handle;
    }

    const kcas_object ring = kcas_queue(cells, capacity);
    std::array<Alone, most_threads + 1> callers{};
    std::atomic<uint32_t> taken{0};
    kcas_bell bell{};
};

int main() { run_all<Store>("c"); }
