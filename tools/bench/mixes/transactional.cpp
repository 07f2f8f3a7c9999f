// The mixes by GCC's transactional memory, which has no call that waits: so without the queue and the hand-over.
#include "rounds.hpp"

class Store {
public:
    static constexpr bool waits = false;

    void add(uint32_t place, uint32_t amount) {
        __transaction_atomic { at[place].value += amount; }
    }

    void transfer(uint32_t to, uint32_t from, uint32_t amount) {
        __transaction_atomic {
            at[to].value += amount;
            at[from].value -= amount;
        }
    }

    void add_eight(uint32_t own) {
        __transaction_atomic {
            uint32_t sum = 0;
            for (uint32_t place = 0; place < locations; place++) sum += at[place].value;
            at[own].value += sum;
        }
    }

    uint32_t find(uint32_t place) {
        uint32_t found;
        __transaction_atomic { found = at[at[place].value].value; }
        return found;
    }

    Values values() {
        Values all;
        for (uint32_t place = 0; place < cells; place++) all[place] = at[place].value;
        return all;
    }

private:
    // On two cache lines of its own, as in the lock-free store.
    struct alignas(128) Cell {
        uint32_t value = 0;
    };

    Cell at[cells];
};

int main() { run_all<Store>("gcc"); }
