"""What the module adds to the library: values are tested and nothing wraps unseen, refusals say what, deadlines, commits as seen."""
import os
import sys
import threading
import time

sys.path.insert(0, os.path.join(os.path.dirname(os.path.abspath(__file__)), "..", "..", "..", "c", "python"))
import kcas


def raises(kind, call, *words):
    try:
        call()
    except kind as error:
        assert all(word in str(error) for word in words), error
        return error
    raise AssertionError("no %s" % kind.__name__)


layout = kcas.Layout()
queue, stack, table, grow, cache = layout.queue(2), layout.stack(2), layout.table(2, 2), layout.grow(4), layout.cache(2, 2)
mvar, promise, acc, x, y = layout.mvar(), layout.promise(), layout.acc(2), layout.loc(5), layout.loc(2**32 - 1)

# Numbers, and how many.
for number in (-1, 2**32, 2**32 + 7, 2**40):
    for call in (queue.enq, stack.push, cache.cget, table.find, mvar.mput, promise.resolve, x.set, x.xchg, x.differs, kcas.say, layout.loc, layout.queue):
        raises(OverflowError, lambda: call(number), str(number))
    raises(OverflowError, lambda: table.put(1, number))
    raises(OverflowError, lambda: x.check("eq", number))
    raises(OverflowError, lambda: x.update("max", number))
for number in (-(2**32), 2**32):
    raises(OverflowError, lambda: x.add(number))
    raises(OverflowError, lambda: acc.bump(number))
for wrong in (queue.enq, lambda: table.put(1), lambda: queue.enq(1, 2), lambda: queue.enq("7"), lambda: x.set(1.5), lambda: x.set(None)):
    raises(TypeError, wrong)
raises(AttributeError, lambda: queue.push(1))
raises(ValueError, lambda: x.check("over", 1), "over", "eq ne")
raises(kcas.Refused, lambda: layout.queue(4097), "KCAS_BAD_SIZE", "queue", "4097")
assert kcas.version() == kcas.__version__

with kcas.open(layout, callers=2) as (one, other):
    rows = [
        (queue.enq(3), None), (queue.enq(4), None), (queue.enq(5), kcas.FULL), (queue.front(), 3), (queue.len(), 2), (queue.length.get(), 2), (queue.deq(), 3), (queue.deqw(), 4), (queue.deq(), kcas.EMPTY),
        (stack.push(7), None), (stack.top(), 7), (stack.popw(), 7), (stack.pop(), kcas.EMPTY), (table.put(1, 9), None), (table.find(1), 9), (table.del_(1), 9), (grow.put(3, 4), None), (grow.len(), 1),
        (cache.cput(1, 2), None), (cache.cputw(2, 3), None), (cache.cget(1), 2), (cache.cdel(2), 3), (mvar.mput(6), None), (mvar.mpeek(), 6), (mvar.mtake(), 6),
        (promise.resolved(), False), (promise.resolve(8), None), (promise.resolve(9), False), (promise.await_(), 8), (acc.bump(5, 1), None), (acc.bump(-2), None), (acc.total(), 3),
        (x.add(-6), 5), (x.incr(), None), (x.get(), 0), (x.decr(), None), (x.get(), 2**32 - 1), (x.set(1), None), (x.swap(y), None), (x.xchg(10), 2**32 - 1), (x.cas(10, 11), True),
        (x.update("add", -1), 11), (x.modify("xor", 3), None), (x.get(), 9),
    ]
    for op, reply in rows:
        told = one.commit(op)
        assert told == [reply], (op, told)
    assert one.read(x) == 9 and one.add(x, -9) == 9 and one.read(x) == 0

    # What is refused, and what waits.
    raises(ValueError, lambda: one.commit(), "1 to 16")
    raises(ValueError, lambda: one.commit(*[x.get()] * 17), "1 to 16")
    raises(ValueError, lambda: one.first([x.get()], []))
    raises(ValueError, lambda: one.first(*[[x.get()]] * 5))
    raises(ValueError, lambda: one.add(queue, 1))
    outside = kcas.Layout()
    for _ in range(14):
        outside.queue(4096)
    far = outside.loc()
    assert raises(kcas.BadOps, lambda: one.commit(x.set(77), far.get()), "KCAS_BAD_OPS", "operation 1", "get", str(far.base)).operation == 1
    assert one.read(x) == 0
    raises(kcas.Waits, lambda: one.commit(queue.deqw()))
    start = time.monotonic()
    raises(kcas.Waits, lambda: one.commit_waiting(queue.deqw(), timeout=0.05))
    raises(kcas.Waits, lambda: one.commit_waiting(queue.deqw(), timeout=0))
    assert 0.05 <= time.monotonic() - start < 5
    told = []
    waiter = threading.Thread(target=lambda: told.extend(one.first_waiting([queue.deqw()], [kcas.say(1), stack.popw()], timeout=60)))
    waiter.start()
    time.sleep(0.05)
    other.commit(stack.push(21))
    waiter.join()
    assert told == [1, 21]

    # Acts on what was seen.
    (seen,) = one.commit(x.get())
    other.add(x, 1)
    assert one.commit_as_seen(y.set(seen)) is None
    (seen,) = one.commit(x.get())
    assert one.commit_as_seen(y.xchg(seen), y.get()) == [1, 1]
    raises(ValueError, lambda: one.commit_as_seen(*[x.get()] * 16), "16 operations")

    # Fed by earlier replies, also where all is moved behind what was seen; what was no number feeds nothing.
    assert one.commit(kcas.say(6), x.xchg(0).fed(0), y.cas(0, 0).fed_second(1), x.get())[3] == 6
    assert one.commit(queue.deq(), x.add(0).fed(0), x.get()) == [kcas.EMPTY, kcas.EMPTY, 6]
    one.commit(x.get())
    assert one.commit_as_seen(kcas.say(9), x.set(0).fed(0), x.get())[2] == 9
    assert raises(kcas.BadOps, lambda: one.commit(x.get(), x.set(0).fed(1)), "operation 1").operation == 1
    assert raises(kcas.BadOps, lambda: one.commit(x.set(0).fed(0)), "no other can feed it").operation == 0
    assert one.first([queue.deqw()], [kcas.say(4), x.set(0).fed(0), x.get()]) == [4, None, 4]
    assert raises(kcas.BadOps, lambda: one.first([kcas.say(1), x.get()], [x.set(0).fed(0)]), "no other can feed it").operation == 2
    assert raises(kcas.BadOps, lambda: one.commit(x.get(), x.update("max", 1).fed(0)), "operation 1").operation == 1

    # Views, and how much of a life is gone.
    assert one.look(x.get(), queue.len()) == [4, 0]
    raises(kcas.Waits, lambda: one.look(queue.deqw()))
    assert raises(kcas.Refused, lambda: one.look(x.incr()), "KCAS_PUTS").name == "KCAS_PUTS"
    life = one.life(x)
    one.add(x, 1)
    assert one.life(x) == life + 1
    assert raises(kcas.Refused, lambda: one.life(far)).name == "KCAS_BAD_OPS"

    # Views that are all in vain: what only reads is committed, what may put ends.
    real, views = kcas._lib.kcas_view, []
    for vain in (kcas.BUSY, kcas.CHANGED):
        kcas._lib.kcas_view = lambda *_: views.append(1) or vain
        assert one.look(x.get(), queue.len()) == [5, 0] and len(views) == 8
        raises(kcas.Waits, lambda: one.look(x.get(), x.check("eq", 77)))
        views.clear()
        assert raises(kcas.Refused, lambda: one.look(x.get(), queue.deq()), "64 views").name == "KCAS_CHANGED" and len(views) == 64
        views.clear()
    kcas._lib.kcas_view = real
    assert one.look(x.get(), queue.deq()) == [5, kcas.EMPTY]

    # Waits for room.
    while one.commit(queue.enq(1)) == [None]:
        pass
    raises(kcas.Waits, lambda: one.commit(queue.enqw(1)))

    # The end of all waits.
    told = []
    waiter = threading.Thread(target=lambda: told.append(raises(kcas.Refused, lambda: one.commit_waiting(queue.enqw(1)), "have ended").name))
    waiter.start()
    time.sleep(0.05)
    other.end()
    waiter.join()
    assert told == ["KCAS_CLOSED"]

# No wake is lost, with deadlines that come before an item does.
EACH = 1000
small, sums = kcas.Layout(), []
items = small.queue(2)
with kcas.open(small, callers=4) as callers:

    def put(caller):
        for i in range(EACH):
            caller.commit_waiting(items.length.check("lt", 2), items.enq(i))

    def take(caller):
        for i in range(EACH):
            try:
                sums.append(caller.commit_waiting(items.deqw(), timeout=i % 20 * 1e-5)[0])
            except kcas.Waits:
                sums.append(caller.commit_waiting(items.deqw())[0])

    threads = [threading.Thread(target=work, args=[caller]) for work, caller in zip((put, take, put, take), callers)]
    for thread in threads:
        thread.start()
    for thread in threads:
        thread.join()
assert sum(sums) == EACH * (EACH - 1)

raises(kcas.Refused, lambda: one.commit(x.get()), "KCAS_CLOSED")
assert raises(kcas.Refused, lambda: kcas.open(layout, callers=65).__enter__()).name == "KCAS_BAD_SIZE"
print("values and refusals as they should be")
