"""A worker takes jobs from a queue and counts what it has done; it waits where there is no job."""
import os
import sys
import threading

sys.path.insert(0, os.path.join(os.path.dirname(os.path.abspath(__file__)), "..", "python"))
import kcas

JOBS = 1000

layout = kcas.Layout()
jobs, done, total = layout.queue(16), layout.loc(), layout.loc()


def work(caller):
    for _ in range(JOBS):
        job, _ = caller.commit_waiting(jobs.deqw(), done.incr())
        caller.add(total, job)


with kcas.open(layout, callers=2) as (foreman, worker):
    thread = threading.Thread(target=work, args=[worker])
    thread.start()
    for job in range(JOBS):
        # Where the queue is full, it waits until one more is done than was done then.
        while (told := foreman.commit(done.get(), jobs.enq(job)))[1] is kcas.FULL:
            foreman.commit_waiting(done.differs(told[0]))
    thread.join()
    print("%d jobs, in all %d" % tuple(foreman.commit(done.get(), total.get())))
