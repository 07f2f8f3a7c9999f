"""A script as data. It is read as one that the program takes: its faults are not looked for."""

from objects import KINDS, Waits

VERSION_ONE_LIMIT = 64
VERSION_TWO_LIMIT = 256


class Script:
    """The limit of a command, the objects by name, and each thread's commands."""

    def __init__(self, text):
        lines = [words for words in (line.split() for line in text.split("\n")) if words and not words[0].startswith("#")]
        self.limit = VERSION_ONE_LIMIT if lines[0][1] == "1" else VERSION_TWO_LIMIT
        self.objects, self.threads = {}, []
        # Location 0 counts the live threads.
        self.cells = 1
        body = iter(lines[1:])
        for words in body:
            if words[0] == "limit":
                self.limit = int(words[1])
            elif words[0] == "thread":
                self.threads.append([])
            elif words[0] in KINDS:
                self.declare(*words)
            else:
                self.threads[-1].append(self.command(words, body))

    def declare(self, kind, name, *numbers):
        self.objects[name] = KINDS[kind](self.cells, *map(int, numbers))
        self.cells += self.objects[name].cells

    def command(self, words, lines):
        """An operation, or a block with all its lines."""
        if words[0] != "atomic":
            return Operation(words)
        block = Block()
        for words in lines:
            if words[0] == "end":
                break
            if words[0] == "or":
                block.alternatives.append([])
            else:
                block.alternatives[-1].append(self.command(words, lines))
        return block

    def opening(self):
        values = [len(self.threads)]
        for it in self.objects.values():
            values += it.opening()
        return values

    def names(self):
        """The name of the object at each location."""
        found = ["live"]
        for name, it in self.objects.items():
            found += [name] * it.cells
        return found


class Operation:
    def __init__(self, words):
        self.words = words

    def run(self, script, log, thread):
        """The items of the reply, in a list."""
        verb, name, *rest = self.words
        if verb == "cancel":
            log.set(0, log.get(0) | 1 << (15 + int(name)))
            return ["ok"]
        if verb == "swap":
            return [script.objects[name].swap(log, script.objects[rest[0]])]
        return [script.objects[name].run(log, thread, verb, *rest)]

    def __str__(self):
        return " ".join(self.words)


class Block:
    def __init__(self):
        self.alternatives = [[]]

    def run(self, script, log, thread):
        before = dict(log.puts)
        for alternative in self.alternatives:
            log.puts = dict(before)
            try:
                return [item for part in alternative for item in part.run(script, log, thread)]
            except Waits:
                pass
        raise Waits

    def __str__(self):
        return "atomic { " + " or ".join("; ".join(map(str, it)) for it in self.alternatives) + " }"
