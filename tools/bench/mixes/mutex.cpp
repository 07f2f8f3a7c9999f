// The mixes around a std::mutex; who waits does so on a std::condition_variable.
#include "rounds.hpp"
#include <condition_variable>
#include <mutex>

class Store {
public:
    static constexpr bool waits = true;

    void add(uint32_t place, uint32_t amount) {
        std::lock_guard<std::mutex> held(lock);
        at[place] += amount;
    }

    void transfer(uint32_t to, uint32_t from, uint32_t amount) {
        std::lock_guard<std::mutex> held(lock);
        at[to] += amount;
        at[from] -= amount;
    }

    void add_eight(uint32_t own) {
        std::lock_guard<std::mutex> held(lock);
        for (uint32_t place = 0; place < locations; place++) at[own] += at[place];
    }

    uint32_t find(uint32_t place) {
        std::lock_guard<std::mutex> held(lock);
        return at[at[place]];
    }

    void enqueue(uint32_t item) {
        std::unique_lock<std::mutex> held(lock);
        changed.wait(held, [&] { return count < capacity; });
        ring[(head + count) % capacity] = item;
        count++;
        changed.notify_all();
    }

    uint32_t dequeue() {
        std::unique_lock<std::mutex> held(lock);
        changed.wait(held, [&] { return count > 0; });
        uint32_t item = ring[head];
        head = (head + 1) % capacity;
        count--;
        changed.notify_all();
        return item;
    }

    void hand_over(uint32_t expected) {
        std::unique_lock<std::mutex> held(lock);
        changed.wait(held, [&] { return at[0] == expected; });
        at[0] = expected + 1;
        changed.notify_all();
    }

    Values values() {
        std::lock_guard<std::mutex> held(lock);
        return at;
    }

private:
    std::mutex lock;
    std::condition_variable changed;
    Values at{};
    std::array<uint32_t, capacity> ring{};
    uint32_t head = 0;
    uint32_t count = 0;
};

int main() { run_all<Store>("mutex"); }
