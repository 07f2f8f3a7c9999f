"""Runs scripts by number on each store and checks each text, and mutations of it, with `kcas check` and with the second reader.

    python3 tools/soak/soak.py PROGRAM MINUTES [FIRST]

Scripts are those of scripts.py, from number FIRST on. Each is run on the lock-free store and on the one behind one lock. Its text has to be
legal by both checkers; of each mutation both have to say the same, with its line and words. What differs is kept, with its script, in a
folder that is named at the end. The status is 0 where nothing differs.
"""

import collections
import concurrent.futures
import itertools
import os
import pathlib
import random
import re
import subprocess
import sys
import tempfile
import threading
import time

sys.path.insert(0, str(pathlib.Path(__file__).resolve().parent.parent / "second"))

from history import Fault, history_of
from mutations import mutated
from script import Script
from scripts import script

STORES = ["kcas", "lock"]
MUTATIONS_A_TEXT = 12
# A run takes milliseconds; one that takes so long doesn't end.
LONGEST_RUN = 60
SAID = re.compile(r"kcas: line ([0-9]+): (.*)\n")


class Soak:
    def __init__(self, program, minutes, first):
        self.program, self.numbers = program, itertools.count(first)
        self.end = time.monotonic() + 60 * minutes
        self.counts, self.lock = collections.Counter(), threading.Lock()
        self.kept = None

    def count(self, **counts):
        with self.lock:
            self.counts.update(counts)

    def keep(self, number, why, source, text=""):
        with self.lock:
            if self.kept is None:
                self.kept = tempfile.mkdtemp(prefix="kcas-soak-")
            self.counts["differ"] += 1
            at = f"{self.kept}/{number}-{self.counts['differ']}"
        for ending, content in ((".kcas", source), (".txt", text), (".why", why + "\n")):
            with open(at + ending, "w", encoding="latin-1", newline="") as file:
                file.write(content)
        print(f"soak: script {number}: {why}; kept as {at}.*", file=sys.stderr, flush=True)

    def run(self, *words, **options):
        return subprocess.run([self.program, *words], capture_output=True, timeout=LONGEST_RUN, **options)

    def checked(self, room, text):
        """What `kcas check` says of a text: None where it is legal, or the line and the words."""
        with open(f"{room}/text", "w", encoding="latin-1", newline="") as file:
            file.write(text)
        ran = self.run("check", f"{room}/script", f"{room}/text")
        if (ran.returncode, ran.stdout, ran.stderr) == (0, b"legal\n", b""):
            return None
        found = SAID.fullmatch(ran.stderr.decode("latin-1"))
        if ran.returncode != 8 or ran.stdout or not found:
            return ran.returncode, ran.stderr.decode("latin-1")
        return int(found[1]), found[2]

    @staticmethod
    def read(source, text):
        """What the second reader says of it, in the same words, and how many waits and cancels there were."""
        try:
            return None, history_of(Script(source), text)
        except Fault as fault:
            return (fault.line, fault.why), []

    def soak_text(self, number, store, room, source, text):
        found, wanted = self.checked(room, text), self.read(source, text)
        if found is not None or wanted[0] is not None:
            self.keep(number, f"a text printed over {store}: the program says {found}, the second reader {wanted[0]}", source, text)
        replies = collections.Counter(commit.reply for commit in wanted[1])
        self.count(texts=1, commits=len(wanted[1]), cancelled=replies["cancelled"], stranded=replies["stranded"], too_large=replies["toolarge"])
        drawn = random.Random(f"{number} {store}")
        for _ in range(MUTATIONS_A_TEXT):
            other = mutated(drawn, text)
            if other == text:
                continue
            found, wanted = self.checked(room, other), self.read(source, other)
            if found != wanted[0]:
                self.keep(number, f"a mutation: the program says {found}, the second reader {wanted[0]}", source, other)
            self.count(mutations=1, **{wanted[0][1] if wanted[0] else "legal": 1})

    def soak_script(self, number):
        source = script(number)
        with tempfile.TemporaryDirectory() as room:
            with open(f"{room}/script", "w", encoding="latin-1", newline="") as file:
                file.write(source)
            for store in STORES:
                try:
                    ran = self.run("run", "--store", store, input=source.encode())
                except subprocess.TimeoutExpired:
                    self.keep(number, f"the run over {store} doesn't end", source)
                    continue
                if ran.returncode:
                    self.keep(number, f"the run over {store} ends with {ran.returncode}: {ran.stderr.decode()}", source)
                    continue
                self.soak_text(number, store, room, source, ran.stdout.decode("latin-1"))
        self.count(scripts=1)

    def work(self):
        while time.monotonic() < self.end:
            self.soak_script(next(self.numbers))

    def tell(self):
        with self.lock:
            counts = ", ".join(f"{count} {name.replace('_', ' ')}" for name, count in self.counts.items())
        print(f"soak: {max(0, self.end - time.monotonic()) / 60:.1f} minutes left; {counts or 'begun'}", file=sys.stderr, flush=True)

    def soak(self):
        with concurrent.futures.ThreadPoolExecutor() as pool:
            workers = [pool.submit(self.work) for _ in range(len(os.sched_getaffinity(0)))]
            while concurrent.futures.wait(workers, timeout=10).not_done:
                self.tell()
        for worker in workers:
            worker.result()
        return self.counts


if __name__ == "__main__":
    soak = Soak(sys.argv[1], float(sys.argv[2]), int(sys.argv[3]) if len(sys.argv) > 3 else 0)
    for name, count in sorted(soak.soak().items()):
        print(f"{count:9} {name.replace('_', ' ')}")
    if soak.kept:
        sys.exit(f"what differs is in {soak.kept}")
    print("nothing differs")
