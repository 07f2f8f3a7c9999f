"""Times an add, a transfer and nine looks by ctypes, in one thread and in two: nanoseconds a commit, the least of five rounds."""
import os
import sys
import threading
import time

sys.path.insert(0, os.path.join(os.path.dirname(os.path.abspath(__file__)), "..", "..", "..", "c", "python"))
import kcas

EACH = 20000


def least(callers, work):
    def round_():
        threads = [threading.Thread(target=work, args=[caller]) for caller in callers]
        start = time.perf_counter()
        for thread in threads:
            thread.start()
        for thread in threads:
            thread.join()
        return (time.perf_counter() - start) * 1e9 / (EACH * len(callers))

    return min(round_() for _ in range(5))


layout = kcas.Layout()
places = [layout.loc() for _ in range(9)]
mixes = {
    "add": [places[0].add(1)],
    "transfer": [places[0].add(1), places[1].add(-1)],
    "nine looks": [place.get() for place in places],
}
with kcas.open(layout, callers=2) as callers:
    for name, ops in mixes.items():

        def work(caller):
            for _ in range(EACH):
                caller.commit(*ops)

        print("Python, %s: %.0f ns by one thread, %.0f by two" % (name, least(callers[:1], work), least(callers, work)))
