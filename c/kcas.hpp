// kcas.hpp: kcas.h for C++17. A caller is moved and never copied, and closes its handle; a store hands them out.
#ifndef KCAS_HPP
#define KCAS_HPP

#if __cplusplus < 201703L && !(defined(_MSVC_LANG) && _MSVC_LANG >= 201703L)
#error "kcas.hpp is C++17: compile with -std=c++17 or a later one"
#endif

#include "kcas.h"

#include <algorithm>
#include <array>
#include <chrono>
#include <cstddef>
#include <ctime>
#include <memory>
#include <stdexcept>
#include <string>
#include <type_traits>
#include <utility>
#include <vector>

namespace kcas {

using object = kcas_object;
using op = kcas_op;
using reply = kcas_reply;

// A call that was refused: its answer, and for KCAS_BAD_OPS which operation is wrong, from 0 on.
struct refused : std::runtime_error {
    static constexpr std::size_t none = static_cast<std::size_t>(-1);
    std::uint32_t answer;
    std::size_t operation;
    explicit refused(std::uint32_t by, std::size_t at = none)
        : std::runtime_error(std::string("kcas: ") + kcas_answer_name(by) + (at == none ? "" : ", operation " + std::to_string(at))), answer(by), operation(at) {}
};

// The operations of one transaction, and behind it their replies.
class transaction {
public:
    transaction &add(const op &operation) {
        if (count_ == ops_.size()) throw refused(KCAS_BAD_OPS);
        ops_[count_++] = operation;
        return *this;
    }
    transaction &add(const object &on, std::uint32_t verb, std::uint32_t a = 0, std::uint32_t b = 0) { return add(kcas_do(on, verb, a, b)); }
    // Begins the next alternative with this operation. One that is fed can't begin one: then the transaction is refused as KCAS_BAD_OPS.
    transaction &or_else(const op &operation) { return add(kcas_or(operation)); }
    transaction &or_else(const object &on, std::uint32_t verb, std::uint32_t a = 0, std::uint32_t b = 0) { return or_else(kcas_do(on, verb, a, b)); }
    // The next operation, whose number `a` is what operation `from` of its alternative replied, the alternative's first being 0. That of a KCAS_SWAP,
    // KCAS_UPDATE, KCAS_MODIFY or KCAS_CHECK can't be.
    transaction &add_fed(const object &on, std::uint32_t verb, std::uint32_t from, std::uint32_t b = 0) { return add(kcas_fed_a(kcas_do(on, verb, 0, b), from)); }
    // The same of its number `b`: a value for the key `a`, say.
    transaction &add_fed_b(const object &on, std::uint32_t verb, std::uint32_t a, std::uint32_t from) { return add(kcas_fed_b(kcas_do(on, verb, a, 0), from)); }
    std::size_t size() const { return count_; }
    const reply &operator[](std::size_t i) const { return replies_[i]; }

private:
    friend class caller;
    std::array<op, KCAS_MOST_OPS> ops_{};
    std::array<reply, KCAS_MOST_OPS> replies_{};
    std::size_t count_ = 0;
};

// One caller of a store. One thread at a time uses it. Each call writes to its handle, so those of two threads don't share a line of a
// cache.
class alignas(128) caller {
public:
    caller(caller &&other) noexcept : handle_(std::exchange(other.handle_, kcas_caller KCAS_CALLER_INIT)), bell_(std::move(other.bell_)) {}
    caller &operator=(caller &&other) noexcept {
        if (this != &other) {
            kcas_close(&handle_);
            handle_ = std::exchange(other.handle_, kcas_caller KCAS_CALLER_INIT);
            bell_ = std::move(other.bell_);
        }
        return *this;
    }
    caller(const caller &) = delete;
    caller &operator=(const caller &) = delete;
    ~caller() { kcas_close(&handle_); }

    // False where it would wait; a refusal is thrown.
    bool commit(transaction &t) { return checked(t, kcas_commit(bell(), &handle_, t.ops_.data(), t.count_, t.replies_.data(), t.replies_.size())); }
    void commit_waiting(transaction &t) { checked(t, kcas_commit_waiting(bell(), &handle_, t.ops_.data(), t.count_, t.replies_.data(), t.replies_.size())); }

    // Operations that put nothing, at one moment: false where they would wait. Such as would put something are refused. It views; behind eight views
    // in vain it commits what only reads, with an entry, and behind 64 what may put is refused by KCAS_CHANGED: kcas_look says more.
    bool look(transaction &t) { return checked(t, kcas_look(bell(), &handle_, t.ops_.data(), t.count_, t.replies_.data(), t.replies_.size())); }

    // Waits so long at most: false where it would still wait.
    template <class Number, class Period>
    bool commit_for(transaction &t, std::chrono::duration<Number, Period> limit) {
        using namespace std::chrono;
        if (duration<double>(limit) > hours(24 * 365 * 100)) return commit_waiting(t), true;
        std::timespec until = kcas_now();
        auto behind = seconds(until.tv_sec) + nanoseconds(until.tv_nsec) + ceil<nanoseconds>(std::max(duration<double>(limit), duration<double>(0)));
        until.tv_sec = static_cast<std::time_t>(duration_cast<seconds>(behind).count());
        until.tv_nsec = static_cast<long>((behind % seconds(1)).count());
        return checked(t, kcas_commit_until(bell(), &handle_, t.ops_.data(), t.count_, t.replies_.data(), t.replies_.size(), &until));
    }
    template <class Span>
    bool commit_until(transaction &t, std::chrono::time_point<std::chrono::steady_clock, Span> until) { return commit_for(t, until - std::chrono::steady_clock::now()); }

    // Commits where all that the last commit read has still the values that it had then: false where something has changed.
    bool commit_as_seen(transaction &t) { return checked(t, kcas_commit_as_seen(bell(), &handle_, t.ops_.data(), t.count_, t.replies_.data(), t.replies_.size())); }

    // One operation, and its reply.
    reply commit(const object &on, std::uint32_t verb, std::uint32_t a = 0, std::uint32_t b = 0) {
        op operation = kcas_do(on, verb, a, b);
        reply told{};
        if (!checked(&operation, 1, kcas_commit(bell(), &handle_, &operation, 1, &told, 1))) throw refused(KCAS_LATER);
        return told;
    }

    // Adds to one location, which wraps, and answers the value before. It costs less than an operation.
    std::uint32_t add(std::uint32_t location, std::uint32_t number) {
        std::uint32_t before = 0;
        checked(kcas_commit_add(bell(), &handle_, location, number, &before));
        return before;
    }

    // A body that is called with a log, as by kcas_run: false where it stopped.
    template <class Body>
    bool run(Body &&body) {
        using Called = std::remove_reference_t<Body>;
        return checked(kcas_run(bell(), &handle_, [](kcas_log *log, void *with) -> std::uint32_t { return (*static_cast<Called *>(with))(*log); }, const_cast<void *>(static_cast<const void *>(std::addressof(body)))));
    }

    // Ends all waits on this store: who waits, or would, is refused by KCAS_CLOSED.
    void end() { kcas_end(bell()); }

    // How much of the life of these locations is gone, of KCAS_LAST_VERSION. A closed caller is refused, and so are locations outside, or none.
    std::uint32_t life(std::uint32_t first, std::uint32_t count) {
        std::uint32_t gone = 0;
        checked(kcas_life(&handle_, first, count, &gone));
        return gone;
    }

    // For the calls of kcas.h: the handle, and the one bell of its store.
    kcas_caller *get() { return &handle_; }
    kcas_bell *bell() { return bell_.get(); }

private:
    friend std::vector<caller> open(const std::vector<std::uint32_t> &, std::size_t);
    caller(kcas_caller handle, std::shared_ptr<kcas_bell> bell) : handle_(handle), bell_(std::move(bell)) {}
    static bool checked(std::uint32_t answer) {
        if (answer != KCAS_DONE && answer != KCAS_LATER) throw refused(answer);
        return answer == KCAS_DONE;
    }
    bool checked(const op *ops, std::size_t count, std::uint32_t answer) {
        if (answer != KCAS_BAD_OPS) return checked(answer);
        std::uint64_t wakes = 0;
        std::size_t at = kcas_bad_op(&handle_, ops, count, &wakes);
        kcas_wake(bell(), wakes);
        throw refused(answer, at == count ? refused::none : at);
    }
    bool checked(const transaction &t, std::uint32_t answer) { return checked(t.ops_.data(), t.count_, answer); }
    kcas_caller handle_;
    std::shared_ptr<kcas_bell> bell_;
};

// A store with these values, and so many callers of it.
inline std::vector<caller> open(const std::vector<std::uint32_t> &values, std::size_t count) {
    std::vector<caller> callers;
    callers.reserve(count);
    std::vector<kcas_caller> handles(count, kcas_caller KCAS_CALLER_INIT);
    auto bell = std::make_shared<kcas_bell>();
    std::uint32_t answer = kcas_open(values.data(), values.size(), handles.data(), count);
    if (answer != KCAS_DONE) throw refused(answer);
    for (const kcas_caller &handle : handles) callers.push_back(caller(handle, bell));
    return callers;
}

// The values of structures that lie one behind another, from location `first` on.
class layout {
public:
    explicit layout(std::size_t first = 0) : values_(first) {}
    object add(object o) {
        o.base = static_cast<std::uint32_t>(values_.size());
        std::uint32_t end = o.base;
        values_.resize(values_.size() + kcas_cells(&o));
        if (kcas_lay(&o, values_.data(), values_.size(), &end) != KCAS_DONE) throw refused(KCAS_BAD_SIZE);
        return o;
    }
    const std::vector<std::uint32_t> &values() const { return values_; }

private:
    std::vector<std::uint32_t> values_;
};

}  // namespace kcas

#endif
