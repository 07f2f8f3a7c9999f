// What kcas.hpp adds to kcas.h: callers that move, refusals that say what, deadlines, commits as seen, and bodies.
#include <kcas.hpp>

#include "test.h"
#include <cstring>
#include <thread>

namespace {

using namespace std::chrono_literals;

template <class Call>
kcas::refused refused_by(Call call) {
    try {
        call();
    } catch (const kcas::refused &found) {
        return found;
    }
    CLAIM(!"refused");
    std::abort();
}

void refusals(kcas::caller &one) {
    kcas::transaction t;
    t.add(kcas_loc(0), KCAS_GET).add(kcas_loc(65535), KCAS_GET);
    kcas::refused found = refused_by([&] { one.commit(t); });
    CLAIM(found.answer == KCAS_BAD_OPS && found.operation == 1 && std::strcmp(found.what(), "kcas: KCAS_BAD_OPS, operation 1") == 0);
    kcas::transaction none;
    CLAIM(refused_by([&] { one.commit(none); }).operation == kcas::refused::none);
    CLAIM(refused_by([&] { one.commit(kcas_loc(0), KCAS_ENQ, 1); }).operation == 0);
    CLAIM(refused_by([&] { one.commit(kcas_loc(0), KCAS_CHECK, KCAS_EQ, 77); }).answer == KCAS_LATER);
    CLAIM(refused_by([&] { one.add(65535, 1); }).answer == KCAS_BAD_OPS);
    CLAIM(refused_by([] { kcas::open({1}, 65); }).answer == KCAS_BAD_SIZE && refused_by([] { kcas::layout().add(kcas_queue(0, 0)); }).answer == KCAS_BAD_SIZE);
}

void deadlines(kcas::caller &one, kcas::caller &other) {
    kcas::transaction t;
    t.add(kcas_check(0, KCAS_GT, 9));
    auto start = std::chrono::steady_clock::now();
    CLAIM(!one.commit_for(t, 20ms) && !one.commit_until(t, start + 40ms) && std::chrono::steady_clock::now() - start >= 40ms);
    CLAIM(!one.commit_for(t, -5s) && !one.commit_for(t, 0.001s) && !one.commit_until(t, start));
    std::thread later([&] {
        std::this_thread::sleep_for(20ms);
        other.add(0, 10);
    });
    CLAIM(one.commit_for(t, std::chrono::hours::max()) && std::chrono::steady_clock::now() - start >= 60ms);
    later.join();
    CLAIM(one.commit_for(t, 1h));
}

void fed_and_looked(kcas::caller &one) {
    kcas::transaction t, look, puts;
    t.add(kcas_say(7)).add_fed(kcas_loc(1), KCAS_XCHG, 0).add_fed_b(kcas_loc(1), KCAS_CAS, 7, 1).add(kcas_loc(1), KCAS_XCHG, 0);
    CLAIM(one.commit(t) && t[2].kind == KCAS_BOOL && t[2].value == 1 && t[3].value == t[1].value);
    look.add(kcas_loc(0), KCAS_GET).add(kcas_loc(1), KCAS_GET);
    CLAIM(one.look(look) && look[1].value == 0 && one.life(0, 2) > 0);
    look.add(kcas_check(0, KCAS_LT, 0));
    CLAIM(!one.look(look));
    puts.add(kcas_loc(0), KCAS_INCR);
    CLAIM(refused_by([&] { one.look(puts); }).answer == KCAS_PUTS);
    puts.add_fed(kcas_loc(0), KCAS_ADD, 1);
    CLAIM(refused_by([&] { one.commit(puts); }).operation == 1);
    kcas::transaction begins;
    begins.add(kcas_say(1)).add(kcas_loc(0), KCAS_GET).or_else(kcas_fed_a(kcas_at(0, KCAS_ADD, 0, 0), 0));
    CLAIM(refused_by([&] { one.commit(begins); }).operation == 2 && refused_by([&] { one.look(begins); }).operation == 2);
    CLAIM(refused_by([&] { one.life(0, 5); }).answer == KCAS_BAD_OPS && refused_by([&] { one.life(0, 0); }).answer == KCAS_BAD_OPS);
}

void ends(kcas::caller &one, kcas::caller &other) {
    kcas::transaction t;
    t.add(kcas_check(0, KCAS_LT, 0));
    std::thread waiter([&] { CLAIM(refused_by([&] { one.commit_waiting(t); }).answer == KCAS_CLOSED); });
    std::this_thread::sleep_for(20ms);
    other.end();
    waiter.join();
    CLAIM(refused_by([&] { one.commit_for(t, 1h); }).answer == KCAS_CLOSED && !one.commit(t));
}

void as_seen(kcas::caller &one, kcas::caller &other) {
    std::uint32_t seen = one.commit(kcas_loc(0), KCAS_GET).value;
    kcas::transaction act;
    act.add(kcas_loc(1), KCAS_SET, seen).add(kcas_loc(1), KCAS_GET);
    other.add(0, 1);
    CLAIM(!one.commit_as_seen(act));
    CLAIM(one.commit(kcas_loc(0), KCAS_GET).value == seen + 1 && one.commit_as_seen(act) && act[1].value == seen);
    CLAIM(one.run([](kcas_log &log) {
        kcas_write(&log, 0, kcas_read_in(&log, 1) + 5);
        return KCAS_COMMIT;
    }));
    CLAIM(other.commit(kcas_loc(0), KCAS_GET).value == seen + 5);
}

}  // namespace

int main() {
    std::vector<kcas::caller> callers = kcas::open({0, 0, 0, 0}, 3);
    kcas::caller one = std::move(callers[0]), other = std::move(callers[1]);
    CLAIM(kcas_is_open(one.get()) && !kcas_is_open(callers[0].get()) && one.bell() && one.bell() == other.bell());
    refusals(one);
    deadlines(one, other);
    as_seen(one, other);
    fed_and_looked(one);
    // By kcas.h's own calls beside the class.
    kcas_op op = kcas_at(2, KCAS_INCR, 0, 0);
    kcas_reply reply;
    CLAIM(kcas_commit(one.bell(), one.get(), &op, 1, &reply, 1) == KCAS_DONE && callers[2].commit(kcas_loc(2), KCAS_GET).value == 1);
    one = std::move(other);
    CLAIM(kcas_number(one.get()) == 1 && !kcas_is_open(other.get()) && refused_by([&] { other.life(0, 1); }).answer == KCAS_CLOSED);
    ends(one, callers[2]);
    return 0;
}
