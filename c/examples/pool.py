"""Two workers take jobs from two queues, the urgent one first. Each takes a job, keeps its result in a cache and counts it, in one commit, and
an auditor sees at every hundred that no job is lost on the way."""
import os
import sys
import threading

sys.path.insert(0, os.path.join(os.path.dirname(os.path.abspath(__file__)), "..", "python"))
import kcas

JOBS, STOP = 2000, 2

layout = kcas.Layout()
queues = urgent, plain = layout.queue(8), layout.queue(32)
results, entered, done = layout.cache(8, 16), layout.loc(), layout.loc()


def work(caller):
    while True:
        which, *seen = caller.first_waiting(
            [kcas.say(0), urgent.length.check("gt", 0), urgent.front()],
            [kcas.say(1), plain.length.check("gt", 0), plain.front()],
            [kcas.say(STOP), done.check("eq", JOBS)],
        )
        if which == STOP:
            return
        job = seen[1]
        # Where the other worker was faster, this does nothing, and the loop looks again.
        caller.commit_as_seen(queues[which].deq(), results.cput(job, job * job), done.incr())


def audit(caller):
    for least in range(100, JOBS + 1, 100):
        _, came, left, *waiting = caller.commit_waiting(done.check("ge", least), entered.get(), done.get(), urgent.len(), plain.len())
        assert came == left + sum(waiting)


with kcas.open(layout, callers=4) as (foreman, first, second, auditor):
    threads = [threading.Thread(target=work, args=[first]), threading.Thread(target=work, args=[second]), threading.Thread(target=audit, args=[auditor])]
    for thread in threads:
        thread.start()
    for job in range(JOBS):
        queue, room = (urgent, 8) if job % 10 == 0 else (plain, 32)
        foreman.commit_waiting(queue.length.check("lt", room), queue.enq(job), entered.incr())
    for thread in threads:
        thread.join()
    print("%d jobs done, the last %d results are kept" % tuple(foreman.commit(done.get(), results.len())))
