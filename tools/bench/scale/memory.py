"""The most resident memory of the program, in kilobytes, for scripts of so many locations and threads: a line 'locations threads kilobytes' each.

    python3 tools/bench/scale/memory.py PROGRAM
"""

import os
import subprocess
import sys
import tempfile
import time

LOCATIONS = [1, 8000, 16000, 32000, 48000, 65000]
THREADS = [1, 16]


def script(locations, threads):
    # A name of few bytes, so that a script of most locations is no longer than it may be.
    lines = ["kcas 1"] + [f"loc a{number} 0" for number in range(locations)]
    for _ in range(threads):
        lines += ["thread", "incr a0"]
    return "\n".join(lines) + "\n"


def full_pipe():
    """A pipe that takes no byte more, so that who writes to it waits."""
    out, into = os.pipe()
    os.set_blocking(into, False)
    try:
        while True:
            os.write(into, bytes(4096))
    except BlockingIOError:
        os.set_blocking(into, True)
    return out, into


def peak(pid):
    with open(f"/proc/{pid}/status") as file:
        return next(int(line.split()[1]) for line in file if line.startswith("VmHWM:"))


def is_asleep(pid):
    with open(f"/proc/{pid}/stat") as file:
        return file.read().rpartition(") ")[2][0] == "S"


def rests(pid):
    """Whether a process sleeps, and goes on to sleep with no more memory."""
    before = peak(pid)
    time.sleep(0.1)
    return is_asleep(pid) and peak(pid) == before


def resident(program, source):
    """What the program has touched when it comes to write: what a process took before it became this program isn't counted."""
    out, into = full_pipe()
    with tempfile.TemporaryFile() as script:
        script.write(source.encode())
        script.seek(0)
        running = subprocess.Popen([program, "run"], stdin=script, stdout=into)
        while not rests(running.pid):
            pass
        found = peak(running.pid)
        running.kill()
        running.wait()
    os.close(out)
    os.close(into)
    return found


if __name__ == "__main__":
    for threads in THREADS:
        for locations in LOCATIONS:
            print(locations, threads, resident(sys.argv[1], script(locations, threads)))
