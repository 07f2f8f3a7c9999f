// The mixes over a store in C++. A peer defines a class Store on cells that open with 0, includes this file, and calls run_all.
// Each round is timed from before its threads are started until they are joined. Prints a line for each: who, mix, threads, tenths
// of nanoseconds per commit. Fails where the last values aren't what the commits add up to.
#pragma once
#include <array>
#include <chrono>
#include <cstdint>
#include <cstdio>
#include <cstdlib>
#include <thread>
#include <vector>

constexpr unsigned rounds = 5;
constexpr uint32_t most_threads = 4;
// Of each thread; and those of both threads that hand over.
constexpr uint32_t each = 100'000;
constexpr uint32_t hand_overs = 10'000;
constexpr uint32_t capacity = 16;

// Eight locations, and behind them a cell of its own for each thread.
constexpr uint32_t locations = 8;
constexpr uint32_t cells = locations + most_threads;

using Values = std::array<uint32_t, cells>;

enum class Kind { Modify, Bump, Transfer, Increment };

// A command of a storm: docs/SCRIPTS.md says how it is drawn.
struct Command {
    Kind kind;
    uint32_t place;
    uint32_t other;
    uint32_t amount;
};

inline Command draw(uint32_t &state) {
    state = state * 1664525u + 1013904223u;
    uint32_t drawn = state >> 16;
    uint32_t place = drawn % 8;
    return {Kind(drawn / 8 % 4), place, (place + 1 + drawn / 32 % 7) % 8, drawn / 256 + 1};
}

// Runs work(number) on so many threads.
template <class Work> double timed(uint32_t threads, Work work) {
    auto start = std::chrono::steady_clock::now();
    std::vector<std::thread> running;
    for (uint32_t number = 0; number < threads; number++) running.emplace_back(work, number);
    for (auto &thread : running) thread.join();
    return std::chrono::duration<double, std::nano>(std::chrono::steady_clock::now() - start).count();
}

inline void print(const char *who, const char *mix, uint32_t threads, double took, uint32_t count) {
    printf("%s %s %u %.0f\n", who, mix, threads, took * 10 / count);
}

inline void check(bool holds, const char *mix) {
    if (holds) return;
    fprintf(stderr, "%s: the sums don't hold\n", mix);
    exit(1);
}

template <class Store> void storm_of(Store &store, uint32_t number) {
    uint32_t state = number + 1;
    for (uint32_t n = 0; n < each; n++) {
        Command c = draw(state);
        switch (c.kind) {
        case Kind::Modify: store.add(c.place, c.amount); break;
        case Kind::Bump: store.add(locations + number, c.amount); break;
        case Kind::Transfer: store.transfer(c.place, c.other, c.amount); break;
        case Kind::Increment: store.add(c.place, 1); break;
        }
    }
}

// What a storm adds up to.
inline Values storm_values(uint32_t threads) {
    Values sums{};
    for (uint32_t number = 0; number < threads; number++) {
        uint32_t state = number + 1;
        for (uint32_t n = 0; n < each; n++) {
            Command c = draw(state);
            switch (c.kind) {
            case Kind::Modify: sums[c.place] += c.amount; break;
            case Kind::Bump: sums[locations + number] += c.amount; break;
            case Kind::Transfer: sums[c.place] += c.amount; sums[c.other] -= c.amount; break;
            case Kind::Increment: sums[c.place] += 1; break;
            }
        }
    }
    return sums;
}

template <class Store> void storm(const char *who, uint32_t threads) {
    Store store;
    double took = timed(threads, [&](uint32_t number) { storm_of(store, number); });
    check(store.values() == storm_values(threads), "storm");
    print(who, "storm", threads, took, threads * each);
}

template <class Store> void same(const char *who, uint32_t threads) {
    Store store;
    double took = timed(threads, [&](uint32_t) {
        for (uint32_t n = 0; n < each; n++) store.add(0, 1);
    });
    check(store.values()[0] == threads * each, "same");
    print(who, "same", threads, took, threads * each);
}

template <class Store> void transfers(const char *who, uint32_t threads) {
    Store store;
    double took = timed(threads, [&](uint32_t) {
        for (uint32_t n = 0; n < each; n++) store.transfer(0, 1, 1);
    });
    Values values = store.values();
    check(values[0] == threads * each && values[1] == 0 - threads * each, "transfers");
    print(who, "transfers", threads, took, threads * each);
}

template <class Store> void own(const char *who, uint32_t threads) {
    Store store;
    double took = timed(threads, [&](uint32_t number) {
        for (uint32_t n = 0; n < each; n++) store.add(locations + number, 1);
    });
    Values values = store.values();
    for (uint32_t number = 0; number < threads; number++) check(values[locations + number] == each, "own");
    print(who, "own", threads, took, threads * each);
}

// The eight locations hold 1 to 8.
template <class Store> void reads(const char *who, uint32_t threads) {
    Store store;
    for (uint32_t place = 0; place < locations; place++) store.add(place, place + 1);
    double took = timed(threads, [&](uint32_t number) {
        for (uint32_t n = 0; n < each; n++) store.add_eight(locations + number);
    });
    Values values = store.values();
    for (uint32_t number = 0; number < threads; number++) check(values[locations + number] == 36 * each, "reads");
    print(who, "reads", threads, took, threads * each);
}

// The first eight locations each name a cell behind them.
inline uint32_t named(uint32_t place) { return locations + place % most_threads; }

// Nine finds to each put: a find reads a location, and the cell that it names.
template <class Store> void mostly_reads(const char *who, uint32_t threads) {
    Store store;
    for (uint32_t place = 0; place < locations; place++) store.add(place, named(place));
    double took = timed(threads, [&](uint32_t number) {
        uint32_t state = number + 1;
        for (uint32_t n = 0; n < each; n++) {
            uint32_t place = draw(state).place;
            if (n % 10 == 9) store.add(named(place), 1);
            else store.find(place);
        }
    });
    Values sums{};
    for (uint32_t place = 0; place < locations; place++) sums[place] = named(place);
    for (uint32_t number = 0; number < threads; number++) {
        uint32_t state = number + 1;
        for (uint32_t n = 0; n < each; n++) {
            uint32_t place = draw(state).place;
            if (n % 10 == 9) sums[named(place)] += 1;
        }
    }
    check(store.values() == sums, "finds");
    print(who, "finds", threads, took, threads * each);
}

template <class Store> void queue(const char *who) {
    Store store;
    uint64_t sum = 0;
    double took = timed(2, [&](uint32_t number) {
        for (uint32_t n = 0; n < each; n++) {
            if (number == 0) store.enqueue(n);
            else sum += store.dequeue();
        }
    });
    check(sum == uint64_t(each) * (each - 1) / 2, "queue");
    print(who, "queue", 2, took, 2 * each);
}

template <class Store> void turns(const char *who) {
    Store store;
    double took = timed(2, [&](uint32_t number) {
        for (uint32_t n = number; n < hand_overs; n += 2) store.hand_over(n);
    });
    check(store.values()[0] == hand_overs, "turns");
    print(who, "turns", 2, took, hand_overs);
}

template <class Store> void run_all(const char *who) {
    for (unsigned round = 0; round < rounds; round++) {
        for (uint32_t threads : {1, 2, 4}) {
            storm<Store>(who, threads);
            same<Store>(who, threads);
            own<Store>(who, threads);
            transfers<Store>(who, threads);
            reads<Store>(who, threads);
            mostly_reads<Store>(who, threads);
        }
        if constexpr (Store::waits) {
            queue<Store>(who);
            turns<Store>(who);
        }
    }
}
