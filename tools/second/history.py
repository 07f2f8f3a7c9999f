"""What a text says of a script, replayed: the first of the checker's tests that fails, and else the commits of the history."""

import collections
import re

from objects import WRAP, Log, TooLarge, Waits

END_LIMIT = 256
NUMBER = re.compile(r"0|[1-9][0-9]*")
WORDS = {"ok", "true", "false", "none", "full"}
ALONE = {"stranded", "cancelled", "toolarge", "-"}
MOST_ITEMS = 16

FORM, TURN, WAITS = "wrong form", "out of turn", "command waits"
REPLY, ORDER, STATE = "wrong reply", "not the canonical order", "wrong state"


class Fault(Exception):
    """A line of a text, and the words for the test that fails there."""

    def __init__(self, line, why):
        super().__init__(f"line {line}: {why}")
        self.line, self.why = line, why


class Commit:
    """A commit of a history: of which thread and command (None for its end), what it read with versions, what it put."""

    def __init__(self, thread, number, reply, log, versions):
        self.thread, self.number, self.reply = thread, number, reply
        self.reads = {location: versions[location] for location in log.touched}
        self.puts = dict(log.puts)

    def place(self):
        return f"{self.thread + 1}.{'end' if self.number is None else self.number + 1}"


class Text:
    """A text by its lines: the replies by place, the places, the lines of the state; a fault of its form is raised."""

    def __init__(self, script, text):
        self.lines, self.at = text.split("\n"), 0
        self.last = len(self.lines) - 1
        commands = [f"{t + 1}.{n + 1}" for t, all_of in enumerate(script.threads) for n in range(len(all_of))]
        places = set(commands) | {f"{t + 1}.end" for t in range(len(script.threads))}
        self.replies = {place: (self.next(lambda line: self.is_reply(place, line)), self.at) for place in commands}
        self.next("order".__eq__)
        self.order = [(self.next(places.__contains__), self.at) for _ in places]
        self.next("state".__eq__)
        self.state = [(self.next(lambda line: self.is_held(name, line)), self.at) for name in script.objects]
        if self.at != self.last or self.lines[self.at]:
            raise Fault(self.at + 1, FORM)

    def next(self, is_right):
        # The last piece ends with no newline.
        if self.at == self.last or not is_right(self.lines[self.at]):
            raise Fault(self.at + 1, FORM)
        self.at += 1
        return self.lines[self.at - 1]

    @staticmethod
    def is_reply(place, line):
        front, blank, said = line.partition(" ")
        if front != place or not blank:
            return False
        words = said.split(" ")
        return said in ALONE or len(words) <= MOST_ITEMS and all(
            word in WORDS or NUMBER.fullmatch(word) and int(word) < WRAP for word in words
        )

    @staticmethod
    def is_held(name, line):
        return line == name or line.startswith(f"{name} ") and all(line[len(name) + 1 :].split(" "))


class Replay:
    """A script's store as its commands run on it, one after another."""

    def __init__(self, script):
        self.script, self.values = script, script.opening()
        self.versions = collections.Counter()
        self.standing = [0] * len(script.threads)
        self.commits = []

    def is_next(self, place):
        thread, number = place.split(".")
        thread = int(thread) - 1
        count = len(self.script.threads[thread])
        index = count if number == "end" else int(number) - 1
        return self.standing[thread] == index

    def commit(self, thread):
        """Runs the next of a thread's commands, or its end, and applies what it puts."""
        commands, index = self.script.threads[thread], self.standing[thread]
        if index == len(commands):
            log = Log(self.values, END_LIMIT)
            log.set(0, log.get(0) - 1)
            made = Commit(thread, None, None, log, self.versions)
        else:
            log = Log(self.values, self.script.limit)
            reply = run_command(self.script, commands[index], log, thread)
            made = Commit(thread, index, reply, log, self.versions)
        for location, value in made.puts.items():
            self.values[location] = value
            self.versions[location] += 1
        self.standing[thread] += 1
        self.commits.append(made)
        return made


def run_command(script, command, log, thread):
    """The reply of a thread's command."""
    try:
        try:
            return " ".join(command.run(script, log, thread)) or "-"
        except Waits:
            log.puts = {}
            return stopped(log, thread)
    except TooLarge:
        log.puts = {}
        return "toolarge"


def stopped(log, thread):
    live = log.get(0)
    flag = 1 << (16 + thread)
    if live & flag:
        log.set(0, live - flag)
        return "cancelled"
    if live % 2**16 == 1:
        return "stranded"
    raise Waits


def canonical(commits):
    """The canonical order of commits: at each place the lowest thread whose next commit is ready."""
    lanes = collections.defaultdict(collections.deque)
    for commit in commits:
        lanes[commit.thread].append(commit)
    threads = sorted(lanes)
    readers = collections.Counter(read for commit in commits for read in commit.reads.items())
    standing = collections.Counter()

    def is_ready(commit):
        return all(standing[at] == version for at, version in commit.reads.items()) and all(
            readers[at, standing[at]] == 1 for at in commit.puts
        )

    while True:
        ready = next((it for it in threads if lanes[it] and is_ready(lanes[it][0])), None)
        if ready is None:
            return
        commit = lanes[ready].popleft()
        readers.subtract(commit.reads.items())
        standing.update(commit.puts.keys())
        yield commit


def history_of(script, text):
    """The commits of a script's history that a text says, in its order; the first test that it fails is raised."""
    said, replay = Text(script, text), Replay(script)
    for place, line in said.order:
        if not replay.is_next(place):
            raise Fault(line, TURN)
        try:
            commit = replay.commit(int(place.split(".")[0]) - 1)
        except Waits:
            raise Fault(line, WAITS) from None
        if commit.number is not None:
            printed, at = said.replies[place]
            if printed != f"{place} {commit.reply}":
                raise Fault(at, REPLY)
    for commit, (place, line) in zip(canonical(replay.commits), said.order):
        if commit.place() != place:
            raise Fault(line, ORDER)
    for (name, it), (printed, line) in zip(script.objects.items(), said.state):
        if printed != " ".join([name, *it.shown(replay.values)]):
            raise Fault(line, STATE)
    return replay.commits
