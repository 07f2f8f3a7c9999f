#!/usr/bin/env python3
"""Proves and builds a crate's libraries on all processors, longest chain first, and says on standard error how far it is.

rt locks a crate and every crate below it while it works, so that two runs of it over one library take turns. Each worker
therefore has a room of its own: the crates' files by hard links, and the libraries that are proved so far. What it proves
is moved here.

Usage: tools/build.py CRATE
"""

import os
import shutil
import subprocess
import sys
import tempfile
import threading
import time

TOP = os.path.dirname(os.path.dirname(os.path.abspath(__file__)))
PARTS = ("src", "specs", "proofs")
# What rt makes of a library: what stands above it loads the first, and its own next check begins with the second.
MADE = ("rlib", "incremental")
# The most memory that a proof was seen to take is 2.4 GB.
KILOBYTES_A_PROOF = 2_500_000
# Lines that one processor proves in a second, until this run has shown how fast the machine is.
FIRST_PACE = 17


def crates():
    """The libraries of this repository on which each crate stands, by name."""
    lines = {}
    with open(os.path.join(TOP, "crates.txt")) as file:
        for line in file:
            head, colon, rest = line.partition("#")[0].partition(":")
            if colon:
                lines[head.split()[0]] = rest.split()
    return {name: [it for it in deps if it in lines] for name, deps in lines.items()}


def below(name, on):
    """The crates below the named one."""
    found, left = set(), [name]
    while left:
        for crate in on[left.pop()]:
            if crate not in found:
                found.add(crate)
                left.append(crate)
    return found


def size(name):
    """The lines of a crate's code, which its proof's time goes by, and a hundred for what each check loads."""
    found = 100
    for at, _, files in os.walk(os.path.join(TOP, "crates", name, "src")):
        for file in files:
            with open(os.path.join(at, file), "rb") as it:
                found += it.read().count(b"\n")
    return found


def made_in(top, name, part=""):
    return os.path.join(top, "crates", name, "out", part)


def linked(one, other):
    # rt writes to no file of a library or of the sources in place; of what it keeps it replaces those of this kind.
    try:
        if "/incremental/" not in one or one.endswith(".oantt"):
            return os.link(one, other)
    except OSError:
        pass
    return shutil.copy2(one, other)


def copied(folder, to):
    if os.path.isdir(folder) and not os.path.isdir(to):
        shutil.copytree(folder, to, copy_function=linked)


def furnish(room, names):
    """Makes a room: the crates' texts, with the list of crates that rt reads."""
    for name in names:
        for part in PARTS:
            copied(os.path.join(TOP, "crates", name, part), os.path.join(room, "crates", name, part))
    with open(os.path.join(TOP, "crates.txt")) as file, open(os.path.join(room, "crates.txt"), "w") as to:
        to.writelines(it for it in file if it.partition(":")[0].split()[:1] and it.partition(":")[0].split()[0] in names)


def move_made(room, name):
    """Puts what was made in a room in the place of what stands here."""
    os.makedirs(made_in(TOP, name), exist_ok=True)
    for part in MADE:
        made, to = made_in(room, name, part), made_in(TOP, name, part)
        if os.path.isdir(made):
            shutil.rmtree(to + ".new", ignore_errors=True)
            shutil.move(made, to + ".new")
            shutil.rmtree(to, ignore_errors=True)
            os.rename(to + ".new", to)


def prove(room, name, lows, jobs):
    """Proves a library in a room; what rt printed, where it isn't proved, else nothing."""
    for low in lows:
        copied(made_in(TOP, low, "rlib"), made_in(room, low, "rlib"))
    # What an earlier run left: rt goes on from there, or takes it whole.
    for part in MADE:
        copied(made_in(TOP, name, part), made_in(room, name, part))
    folder = os.path.join(room, "crates", name)
    words = ["rt", "lib", "--jobs", str(jobs)]
    ran = subprocess.run(words, cwd=folder, stdin=subprocess.DEVNULL, stdout=subprocess.PIPE, stderr=subprocess.STDOUT)
    if ran.returncode:
        return ran.stdout
    move_made(room, name)
    return b""


def lanes_here():
    """How many proofs run side by side: one a processor, where memory holds them."""
    with open("/proc/meminfo") as file:
        free = next(int(it.split()[1]) for it in file if it.startswith("MemAvailable:"))
    return max(1, min(len(os.sched_getaffinity(0)), free // KILOBYTES_A_PROOF))


class Work:
    """The libraries that are to be proved, and who proves which."""

    def __init__(self, top):
        self.on = crates()
        self.left = below(top, self.on)
        self.lanes = lanes_here()
        self.sizes = {it: size(it) for it in self.left}
        self.chains = {}
        for name in self.left:
            self.chain(name)
        self.done, self.running, self.failed = set(), {}, []
        self.turn = threading.Condition()
        self.began, self.lines_done = time.monotonic(), 0

    def chain(self, name):
        """The lines of the longest chain of libraries that begins with this one."""
        if name not in self.chains:
            above = [it for it in self.sizes if name in self.on[it]]
            self.chains[name] = self.sizes[name] + max(map(self.chain, above), default=0)
        return self.chains[name]

    def minutes_left(self):
        """A guess: the lines that are left at the pace so far, and no less than their longest chain on one processor."""
        lines = sum(self.sizes[it] for it in self.left)
        seconds = time.monotonic() - self.began
        # What earlier runs had proved goes by at once, so the first libraries show no pace.
        pace = self.lines_done / seconds if self.lines_done > 3000 else FIRST_PACE * self.lanes
        chain = max((self.chains[it] for it in self.left), default=0)
        return max(lines / pace, chain * self.lanes / pace / 2.5) / 60

    def next(self):
        """The library to prove next, with its processors; None where nothing is left to do."""
        with self.turn:
            while not self.failed and self.left:
                idle = self.lanes - sum(self.running.values())
                ready = [it for it in self.left if it not in self.running and self.done.issuperset(self.on[it])]
                if ready and idle > 0:
                    name = max(ready, key=self.chains.get)
                    # Processors that no other library waits for share this one's work. Two gain nothing.
                    jobs = min(4, idle // len(ready))
                    self.running[name] = jobs if jobs > 2 else 1
                    say(f"proving {name}, {len(self.left) + 1} left, about {self.minutes_left() + 1:.0f} minutes")
                    return name, self.running[name]
                self.turn.wait()
            return None

    def end(self, name, said):
        with self.turn:
            del self.running[name]
            self.left.discard(name)
            self.done.add(name)
            self.lines_done += self.sizes[name]
            if said:
                self.failed.append((name, said))
            self.turn.notify_all()

    def run(self, room):
        """Proves one library after another in a room."""
        while turn := self.next():
            name, jobs = turn
            try:
                said = prove(room, name, below(name, self.on), jobs)
            except OSError as error:
                said = f"{error}\n".encode()
            self.end(name, said)


def say(text):
    print(f"kcas: {text}", file=sys.stderr, flush=True)


def build(top):
    """Proves all libraries below a crate, as many side by side as there are processors. Whether all are proved."""
    work = Work(top)
    # Hard links want the rooms on the disk on which the crates lie.
    git = os.path.join(TOP, ".git")
    with tempfile.TemporaryDirectory(prefix="kcas-build-", dir=git if os.path.isdir(git) else None) as rooms:
        workers = []
        for number in range(work.lanes):
            room = os.path.join(rooms, str(number))
            furnish(room, work.sizes.keys() | {top})
            workers.append(threading.Thread(target=work.run, args=(room,)))
        for worker in workers:
            worker.start()
        for worker in workers:
            worker.join()
    for name, said in work.failed:
        sys.stderr.buffer.write(said)
        say(f"{name} was not proved")
    return not work.failed


if __name__ == "__main__":
    if len(sys.argv) != 2:
        sys.exit(__doc__)
    sys.exit(0 if build(sys.argv[1]) else 1)
