"""Scripts by number, of up to 16 threads, with every kind of object, command and block, waits and cancels among them.

Each ends on every store, in every order of its threads' steps. A thread but the last is of one of two kinds. One kind waits only for what threads of
lower numbers do by commands that never wait (a promise that is resolved, a number that only rises), or has in the same block an
alternative that waits for such a thing or doesn't wait. The other has one command that may wait for ever, and a thread of a lower number
cancels it. The last thread may wait for anything: once all others have ended it is stranded.
"""

import random

FUNCTIONS = ["add", "max", "min", "and", "or", "xor"]
RELATIONS = ["eq", "ne", "lt", "le", "gt", "ge"]
EDGES = [0, 1, 2, 3, 7, 2**31, 2**32 - 1]
MOST_IN_BLOCK = 16
MOST_LEVEL = 8
# A signal takes two locations, and a command that would wait one more.
LEAST_LIMIT = 4


class Maker:
    def __init__(self, number):
        self.drawn = random.Random(number)
        self.version = self.drawn.choice([1, 2, 2])
        self.limit = self.drawn.choice([None, None, self.drawn.randint(LEAST_LIMIT, 40), 256]) if self.version == 2 else None
        self.count = self.drawn.randint(1, 16)
        self.objects = {}
        self.declarations = []
        # What threads of lower numbers have done for sure at their end, by commands that never wait: a promise, or a rising location and its value.
        self.promised, self.risen = [], []
        self.cancels = [[] for _ in range(self.count)]

    def value(self):
        return self.drawn.choice(EDGES) if self.drawn.random() < 0.1 else self.drawn.randrange(20)

    def key(self):
        return self.drawn.randrange(12)

    def declare(self, kind, *numbers):
        name = f"{kind[0]}{len(self.objects)}"
        self.objects[name] = kind
        self.declarations.append(" ".join(map(str, [kind, name, *numbers])))
        return name

    def declare_all(self):
        drawn = self.drawn
        capacity = lambda: drawn.randint(1, 6)
        for _ in range(drawn.randint(2, 5)):
            self.declare("loc", self.value())
        for kind in drawn.sample(["stack", "queue", "table", "grow", "cache", "mvar", "promise", "acc"], drawn.randint(2, 8)):
            if kind == "grow" and self.version == 1:
                continue
            numbers = {
                "table": [drawn.randint(1, 3), capacity()],
                "grow": [drawn.randint(1, 12)],
                "cache": [drawn.randint(1, 3), capacity()],
                "mvar": [],
                "promise": [],
                "acc": [drawn.randint(1, 6)],
            }.get(kind, [capacity()])
            self.declare(kind, *numbers)

    def operation(self):
        """A command of one line that never waits."""
        drawn = self.drawn
        name = drawn.choice([it for it in self.objects if it[0] not in "fr"])
        kind, value, key = self.objects[name], self.value(), self.key()
        other = drawn.choice([it for it, of in self.objects.items() if of == "loc" and it[0] == "l"])
        return drawn.choice(
            {
                "loc": [
                    f"get {name}", f"set {name} {value}", f"xchg {name} {value}", f"swap {name} {other}", f"cas {name} {self.value()} {value}",
                    f"add {name} {value}", f"incr {name}", f"decr {name}", f"update {name} {drawn.choice(FUNCTIONS)} {value}",
                    f"modify {name} {drawn.choice(FUNCTIONS)} {value}",
                ],
                "stack": [f"push {name} {value}", f"push {name} {value}", f"pop {name}", f"top {name}", f"len {name}"],
                "queue": [f"enq {name} {value}", f"enq {name} {value}", f"deq {name}", f"front {name}", f"len {name}"],
                "table": [f"put {name} {key} {value}", f"put {name} {key} {value}", f"find {name} {key}", f"del {name} {key}", f"len {name}"],
                "grow": [f"put {name} {key} {value}", f"put {name} {key} {value}", f"find {name} {key}", f"del {name} {key}", f"len {name}"],
                "cache": [f"cput {name} {key} {value}", f"cput {name} {key} {value}", f"cget {name} {key}", f"cdel {name} {key}", f"len {name}"],
                "mvar": [f"mpeek {name}"],
                "promise": [f"resolve {name} {value}", f"resolved {name}"],
                "acc": [f"bump {name} {value}", f"total {name}"],
            }[kind]
        )

    def waiting(self):
        """A command of one line that may wait."""
        drawn = self.drawn
        found = []
        for name, kind in self.objects.items():
            if name[0] in "fr":
                continue
            found += {
                "loc": [f"check {name} {drawn.choice(RELATIONS)} {self.value()}"],
                "stack": [f"popw {name}"],
                "queue": [f"deqw {name}"],
                "cache": [f"cputw {name} {self.key()} {self.value()}"],
                "mvar": [f"mput {name} {self.value()}", f"mtake {name}"],
                "promise": [f"await {name}"],
            }.get(kind, [])
        return drawn.choice(found)

    def sure(self):
        """A command that waits for nothing, or for what a thread of a lower number does for sure."""
        drawn = self.drawn
        if self.promised and drawn.random() < 0.5:
            return f"await {drawn.choice(self.promised)}"
        if self.risen and drawn.random() < 0.5:
            name, most = drawn.choice(self.risen)
            return f"check {name} ge {drawn.randint(0, most)}"
        return self.operation()

    def parts(self, room, level, last):
        """The lines of an alternative, and how many commands they are; where it is the last of an outermost block it waits for nothing unsure."""
        drawn = self.drawn
        lines, used = [], 0
        for _ in range(drawn.randint(0, 4)):
            if used >= room:
                break
            chance = drawn.random()
            if chance < 0.15 and level < MOST_LEVEL - 1 and room - used > 4:
                inner, count = self.block(room - used - 1, level + 1, last)
                lines += inner
                used += count + 1
            else:
                lines.append(self.sure() if last and chance < 0.5 else self.operation() if last or chance < 0.6 else self.waiting())
                used += 1
        if drawn.random() < 0.1 and used < room:
            lines.append(f"cancel {drawn.randint(1, 16)}")
            used += 1
        return lines, used

    def block(self, room, level, is_sure):
        """The lines of a block, and how many commands are in it. Where it has to be sure its last alternative is."""
        count = min(self.drawn.choice([1, 1, 2, 2, 3]), MOST_LEVEL - level + 1)
        lines, used = ["atomic"], 0
        for number in range(count):
            if number:
                lines.append("or")
            inner, taken = self.parts((room - used) // (count - number), level + number, is_sure and number == count - 1)
            lines += inner
            used += taken
        return lines + ["end"], used

    def command(self):
        chance = self.drawn.random()
        if chance < 0.25:
            return self.block(MOST_IN_BLOCK, 0, True)[0]
        if chance < 0.35:
            return [self.sure()]
        if chance < 0.38:
            return [f"cancel {self.drawn.randint(1, 16)}"]
        return [self.operation()]

    def thread(self, number):
        drawn = self.drawn
        lines = [self.command() for _ in range(drawn.randint(0, 12))]
        if number == self.count - 1 and drawn.random() < 0.5:
            # Nobody waits for the last thread, so that it may wait for whatever there is.
            return [[self.waiting()] if drawn.random() < 0.3 else line for line in lines]
        if number and drawn.random() < 0.3:
            # It may wait for ever, and has no other command that waits.
            lines = [[self.operation()] for _ in lines]
            wait = [self.waiting()] if drawn.random() < 0.6 else self.block(MOST_IN_BLOCK, 0, False)[0]
            lines.insert(drawn.randint(0, len(lines)), wait)
            self.cancels[drawn.randrange(number)].append(number + 1)
        return lines

    def signals(self, number):
        """What this thread does for those behind it, by commands that never wait: declared here, and put among its commands."""
        drawn, lines = self.drawn, []
        for _ in range(drawn.randint(0, 2)):
            if drawn.random() < 0.5:
                name = f"f{number}_{len(self.objects)}"
                self.declarations.append(f"promise {name}")
                lines.append([f"resolve {name} {self.value()}"])
                self.objects[name] = "promise"
                yield ("promise", name, lines[-1])
            else:
                name, most = f"r{number}_{len(self.objects)}", drawn.randint(1, 3)
                self.declarations.append(f"loc {name} 0")
                self.objects[name] = "loc"
                for _ in range(most):
                    yield ("loc", (name, most), [f"incr {name}"])

    def script(self):
        self.declare_all()
        threads = []
        for number in range(self.count):
            lines = self.thread(number)
            promised, risen = [], {}
            for kind, what, line in self.signals(number):
                lines.insert(self.drawn.randint(0, len(lines)), line)
                if kind == "promise":
                    promised.append(what)
                else:
                    risen[what[0]] = what
            threads.append(lines)
            self.promised += promised
            self.risen += risen.values()
        head = [f"kcas {self.version}"] + ([f"limit {self.limit}"] if self.limit else []) + self.declarations
        for lines, cancelled in zip(threads, self.cancels):
            for thread in cancelled:
                lines.insert(self.drawn.randint(0, len(lines)), [f"cancel {thread}"])
            head.append("thread")
            head += [line for command in lines for line in command]
        return "\n".join(head) + "\n"


def script(number):
    return Maker(number).script()
