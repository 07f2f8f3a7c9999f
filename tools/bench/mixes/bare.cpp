// The mixes by the atomic operations alone that a commit of the lock-free store makes, in their order, on words that lie as its own do:
// no log, no footprint, no history, and no help. Who meets a reference waits until it is gone. What a commit costs with nothing around
// it; crates/kc_table/src/swaps.rt makes the same for a commit of one put, crates/kc_table_straight/src/straight.rt for the others.
// With -DRELEASE the stores that fill a descriptor are release stores, which need no lock; Rattle has none.
#include "rounds.hpp"
#include <atomic>

#ifdef RELEASE
constexpr auto filling = std::memory_order_release;
constexpr auto who = "release";
#else
constexpr auto filling = std::memory_order_seq_cst;
constexpr auto who = "bare";
#endif

class Store {
public:
    static constexpr bool waits = false;

    void add(uint32_t place, uint32_t amount) {
        Line lines[] = {{place, amount}};
        while (!commit(lines, 0, 1)) {}
    }

    void transfer(uint32_t to, uint32_t from, uint32_t amount) {
        Line lines[] = {{to, amount}, {from, -amount}};
        if (to > from) std::swap(lines[0], lines[1]);
        while (!commit(lines, 0, 2)) {}
    }

    void add_eight(uint32_t own) {
        Line lines[locations + 1];
        for (uint32_t place = 0; place < locations; place++) lines[place].place = place;
        lines[locations].place = own;
        while (!commit(lines, locations, locations + 1)) {}
    }

    // Two loads, and two more that confirm them.
    uint32_t find(uint32_t place) {
        for (;;) {
            uint64_t first = look(place), second = look(uint32_t(first));
            if (location(place) == first && location(uint32_t(first)) == second) return uint32_t(second);
        }
    }

    Values values() {
        Values all{};
        for (uint32_t place = 0; place < cells; place++) all[place] = uint32_t(look(place));
        return all;
    }

private:
    // Each location has two cache lines, with its awaiters behind its word; a descriptor has control, status, owner, and two words a line.
    static constexpr uint64_t line_words = 16, descriptor_words = 520, descriptors = 3 * most_threads + 1;
    static constexpr uint64_t reference = 1ull << 63, first_version = 1ull << 32, active = 0, succeeded = 256, failed = 512;

    struct Line {
        uint32_t place = 0, amount = 0;
        uint64_t seen = 0, after = 0;
    };

    using Word = std::atomic<uint64_t>;
    alignas(128) Word words[line_words * cells + descriptor_words * descriptors]{};

    Word &location(uint32_t place) { return words[line_words * place]; }

    static uint64_t caller() {
        static std::atomic<uint64_t> next;
        thread_local uint64_t mine = next++ % most_threads;
        return mine;
    }

    uint64_t look(uint32_t place) {
        uint64_t word;
        while ((word = location(place)) & reference) {}
        return word;
    }

    // A commit of one line that puts takes no descriptor.
    bool swap(const Line &line) {
        uint64_t stood = line.seen;
        if (!location(line.place).compare_exchange_strong(stood, line.after)) return false;
        Word &awaiters = (&location(line.place))[1];
        if (awaiters) awaiters.exchange(0);
        return true;
    }

    // A commit of so many lines, of which those from the first put on add their amount and what those before it hold in sum. Whether it
    // was made: a line that isn't put is compared.
    bool commit(Line *lines, unsigned first_put, unsigned count) {
        uint32_t sum = 0;
        for (unsigned k = 0; k < count; k++) {
            lines[k].seen = look(lines[k].place);
            if (k < first_put) sum += uint32_t(lines[k].seen);
            lines[k].after = (((lines[k].seen >> 32 << 32) + first_version) & ~reference) | uint32_t(lines[k].seen + lines[k].amount + sum);
        }
        if (count == 1) return swap(lines[0]);
        uint64_t own = 3 * caller();
        Word *d = words + line_words * cells + descriptor_words * own;
        uint64_t control = d[0], generation = (control >> 24) + 1;
        d[0].compare_exchange_strong(control, generation << 24 | 1);
        d[2].store(own << 48 | count, filling);
        for (unsigned k = 0; k < count; k++) {
            d[3 + 2 * k].store((k < first_put ? 0 : reference) | lines[k].seen, filling);
            d[4 + 2 * k].store(uint64_t(lines[k].place) << 32 | uint32_t(lines[k].after), filling);
        }
        d[1].store(generation << 24 | active, filling);
        uint64_t mine = reference | generation << 23 | own << 8;
        unsigned made = first_put;
        for (uint64_t stood; made < count; made++) {
            stood = lines[made].seen;
            if (!location(lines[made].place).compare_exchange_strong(stood, mine | made)) break;
        }
        bool is_made = made == count;
        for (unsigned k = 0; is_made && k < first_put; k++) is_made = location(lines[k].place) == lines[k].seen;
        uint64_t undecided = generation << 24 | active;
        d[1].compare_exchange_strong(undecided, generation << 24 | (is_made ? succeeded : failed));
        for (unsigned k = first_put; k < made; k++) {
            uint64_t word = mine | k;
            location(lines[k].place).compare_exchange_strong(word, is_made ? lines[k].after : lines[k].seen);
        }
        for (unsigned k = first_put; is_made && k < count; k++) {
            Word &awaiters = (&location(lines[k].place))[1];
            if (awaiters) awaiters.exchange(0);
        }
        d[0].fetch_sub(1);
        return is_made;
    }
};

int main() { run_all<Store>(who); }
