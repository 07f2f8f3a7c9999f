"""The objects of a script by their cells, as docs/CELLS.md has them: where each lies, what each operation reads and writes, in order.

An operation works on a log, and answers its reply as it is printed. What is replayed begins with the opening values and is one history,
so the cells are always well formed: what operations do on others isn't said here.
"""

import operator

WRAP = 2**32
FUNCTIONS = {
    "add": lambda a, b: (a + b) % WRAP,
    "max": max,
    "min": min,
    "and": operator.and_,
    "or": operator.or_,
    "xor": operator.xor,
}
RELATIONS = {name: getattr(operator, name) for name in ["eq", "ne", "lt", "le", "gt", "ge"]}


class Waits(Exception):
    """A command would wait."""


class TooLarge(Exception):
    """A command would touch more locations than its limit."""


class Log:
    """What a transaction touches, on the values that stand."""

    def __init__(self, values, limit):
        self.values, self.limit = values, limit
        # The locations touched, in order, and the last values written.
        self.touched, self.puts = {}, {}

    def touch(self, location):
        if location not in self.touched:
            if len(self.touched) == self.limit:
                raise TooLarge
            self.touched[location] = None

    def get(self, location):
        self.touch(location)
        return self.puts.get(location, self.values[location])

    def set(self, location, value):
        self.touch(location)
        self.puts[location] = value % WRAP


def said(value):
    return "none" if value is None else str(value)


class Location:
    def __init__(self, base, opening):
        self.base, self.cells, self.first = base, 1, opening

    def opening(self):
        return [self.first]

    def run(self, log, thread, verb, *words):
        before = log.get(self.base)
        if verb == "check":
            if not RELATIONS[words[0]](before, int(words[1])):
                raise Waits
            return "ok"
        if verb == "cas":
            if before == int(words[0]):
                log.set(self.base, int(words[1]))
            return "true" if before == int(words[0]) else "false"
        if verb != "get":
            log.set(self.base, self.after(verb, before, words))
        return "ok" if verb in ("set", "incr", "decr", "modify") else str(before)

    @staticmethod
    def after(verb, before, words):
        if verb in ("set", "xchg"):
            return int(words[0])
        if verb == "add":
            return before + int(words[0])
        if verb in ("incr", "decr"):
            return before + (1 if verb == "incr" else -1)
        return FUNCTIONS[words[0]](before, int(words[1]))

    def swap(self, log, other):
        mine, its = log.get(self.base), log.get(other.base)
        log.set(self.base, its)
        log.set(other.base, mine)
        return "ok"

    def shown(self, values):
        return [str(values[self.base])]


class Stack:
    def __init__(self, base, capacity):
        self.base, self.capacity, self.cells = base, capacity, 1 + capacity

    def opening(self):
        return [0] * self.cells

    def run(self, log, thread, verb, *words):
        count = log.get(self.base)
        if verb == "len":
            return str(count)
        if verb == "push":
            if count == self.capacity:
                return "full"
            log.set(self.base + 1 + count, int(words[0]))
            log.set(self.base, count + 1)
            return "ok"
        if count == 0:
            if verb == "popw":
                raise Waits
            return "none"
        item = log.get(self.base + count)
        if verb != "top":
            log.set(self.base, count - 1)
        return str(item)

    def shown(self, values):
        return [str(values[self.base + place]) for place in range(values[self.base], 0, -1)]


class Queue:
    def __init__(self, base, capacity):
        self.base, self.capacity, self.cells = base, capacity, 2 + capacity

    def opening(self):
        return [0] * self.cells

    def ring(self, place):
        return self.base + 2 + place % self.capacity

    def run(self, log, thread, verb, *words):
        count = log.get(self.base + 1)
        if verb == "len":
            return str(count)
        if verb == "enq":
            if count == self.capacity:
                return "full"
            log.set(self.ring(log.get(self.base) + count), int(words[0]))
            log.set(self.base + 1, count + 1)
            return "ok"
        if count == 0:
            if verb == "deqw":
                raise Waits
            return "none"
        head = log.get(self.base)
        item = log.get(self.ring(head))
        if verb != "front":
            log.set(self.base, (head + 1) % self.capacity)
            log.set(self.base + 1, count - 1)
        return str(item)

    def shown(self, values):
        return [str(values[self.ring(values[self.base] + i)]) for i in range(values[self.base + 1])]


class OnePlace:
    """A one-place variable, or a promise."""

    cells = 2

    def __init__(self, base):
        self.base = base

    def opening(self):
        return [0, 0]

    def run(self, log, thread, verb, *words):
        flag = log.get(self.base)
        if verb == "resolved":
            return "true" if flag else "false"
        if verb in ("mput", "resolve"):
            if flag and verb == "mput":
                raise Waits
            if flag:
                return "false"
            log.set(self.base + 1, int(words[0]))
            log.set(self.base, 1)
            return "ok"
        if not flag:
            if verb != "mpeek":
                raise Waits
            return "none"
        value = log.get(self.base + 1)
        if verb == "mtake":
            log.set(self.base, 0)
        return str(value)

    def shown(self, values):
        return [str(values[self.base + 1]) if values[self.base] else "none"]


class Accumulator:
    def __init__(self, base, cells):
        self.base, self.cells = base, cells

    def opening(self):
        return [0] * self.cells

    def run(self, log, thread, verb, *words):
        if verb == "bump":
            cell = self.base + thread % self.cells
            log.set(cell, log.get(cell) + int(words[0]))
            return "ok"
        return str(sum(log.get(self.base + cell) for cell in range(self.cells)) % WRAP)

    def shown(self, values):
        return [str(sum(values[self.base : self.base + self.cells]) % WRAP)]


class Chains:
    """Chains of nodes, which both tables are made of."""

    def __init__(self, base, heads, buckets, capacity):
        self.base, self.heads, self.capacity = base, heads, capacity
        self.nodes = heads + buckets
        self.cells = self.nodes + 3 * capacity - base

    def key(self, node):
        return self.nodes + 3 * (node - 1)

    def value(self, node):
        return self.key(node) + 1

    def next(self, node):
        return self.key(node) + 2

    def opening(self):
        nodes = [cell for node in range(1, self.capacity + 1) for cell in (0, 0, node + 1 if node < self.capacity else 0)]
        return [0, 1] + [0] * (self.nodes - self.base - 2) + nodes

    def walk(self, log, head, key):
        """The link that names the node of a key and the node, or the head and 0 where no node has it."""
        link, node = head, log.get(head)
        while node:
            if log.get(self.key(node)) == key:
                return link, node
            link = self.next(node)
            node = log.get(link)
        return head, 0

    def find(self, log, head, key):
        _, node = self.walk(log, head, key)
        return log.get(self.value(node)) if node else None

    def put(self, log, head, key, value):
        """`ok` where the key was there, `full` where it can't come, else how many keys there are now."""
        _, node = self.walk(log, head, key)
        if node:
            log.set(self.value(node), value)
            return "ok"
        node = log.get(self.base + 1)
        if not node:
            return "full"
        log.set(self.base + 1, log.get(self.next(node)))
        first = log.puts.get(head, log.values[head])
        log.set(self.key(node), key)
        log.set(self.value(node), value)
        log.set(self.next(node), first)
        log.set(head, node)
        count = log.get(self.base) + 1
        log.set(self.base, count)
        return count

    def delete(self, log, head, key):
        link, node = self.walk(log, head, key)
        if not node:
            return None
        log.set(link, log.get(self.next(node)))
        log.set(self.next(node), log.get(self.base + 1))
        log.set(self.base + 1, node)
        log.set(self.base, log.get(self.base) - 1)
        return log.get(self.value(node))

    def pairs(self, values):
        found = {}
        for head in range(self.heads, self.nodes):
            node = values[head]
            while node:
                found[values[self.key(node)]] = values[self.value(node)]
                node = values[self.next(node)]
        return found


class Table:
    def __init__(self, base, buckets, capacity):
        self.chains = Chains(base, base + 2, buckets, capacity)
        self.base, self.buckets, self.cells = base, buckets, self.chains.cells

    def opening(self):
        return self.chains.opening()

    def head(self, log, key):
        return self.chains.heads + key % self.buckets

    def grown(self, log, count):
        """What becomes of the table behind a new key."""

    def run(self, log, thread, verb, *words):
        if verb == "len":
            return str(log.get(self.base))
        key = int(words[0])
        head = self.head(log, key)
        if verb == "find":
            return said(self.chains.find(log, head, key))
        if verb == "del":
            return said(self.chains.delete(log, head, key))
        put = self.chains.put(log, head, key, int(words[1]))
        if isinstance(put, str):
            return put
        self.grown(log, put)
        return "ok"

    def shown(self, values):
        return [f"{key}={value}" for key, value in sorted(self.chains.pairs(values).items())]


class Growing(Table):
    """A table that grows: a bucket is split where there are more keys than buckets."""

    def __init__(self, base, capacity):
        self.chains = Chains(base, base + 3, capacity, capacity)
        self.base, self.capacity, self.cells = base, capacity, self.chains.cells

    def opening(self):
        cells = self.chains.opening()
        cells[2] = 1
        return cells

    @staticmethod
    def power(buckets):
        return 1 << (buckets.bit_length() - 1)

    def head(self, log, key):
        buckets = log.get(self.base + 2)
        power = self.power(buckets)
        wide = key % (2 * power)
        return self.chains.heads + (wide if wide < buckets else wide - power)

    def grown(self, log, count):
        buckets = log.puts.get(self.base + 2, log.values[self.base + 2])
        if count > buckets and buckets < self.capacity:
            self.split(log, buckets)

    def split(self, log, buckets):
        power, chains = self.power(buckets), self.chains
        log.set(self.base + 2, buckets + 1)
        node = log.get(chains.heads + buckets - power)
        stays = moves = 0
        while node:
            leaves = log.get(chains.key(node)) % (2 * power) == buckets
            behind = log.get(chains.next(node))
            log.set(chains.next(node), moves if leaves else stays)
            if leaves:
                moves = node
            else:
                stays = node
            node = behind
        log.set(chains.heads + buckets - power, stays)
        log.set(chains.heads + buckets, moves)


class Linked:
    """A doubly linked list."""

    def __init__(self, base, capacity):
        self.first, self.last, self.free, self.capacity = base, base + 1, base + 2, capacity
        self.cells = 3 + 3 * capacity

    def payload(self, node):
        return self.free + 1 + 3 * (node - 1)

    def before(self, node):
        return self.payload(node) + 1

    def next(self, node):
        return self.payload(node) + 2

    def opening(self):
        return [0, 0, 1] + [c for node in range(1, self.capacity + 1) for c in (0, 0, node + 1 if node < self.capacity else 0)]

    def unlink(self, log, node):
        before, behind = log.get(self.before(node)), log.get(self.next(node))
        log.set(self.next(before) if before else self.first, behind)
        log.set(self.before(behind) if behind else self.last, before)

    def lead(self, log, node, first):
        log.set(self.before(node), 0)
        log.set(self.next(node), first)
        log.set(self.before(first) if first else self.last, node)
        log.set(self.first, node)

    def push(self, log, payload):
        node = log.get(self.free)
        log.set(self.free, log.get(self.next(node)))
        first = log.get(self.first)
        log.set(self.payload(node), payload)
        self.lead(log, node, first)
        return node

    def remove(self, log, node):
        self.unlink(log, node)
        log.set(self.next(node), log.get(self.free))
        log.set(self.free, node)
        log.get(self.payload(node))

    def move_to_front(self, log, node):
        if log.get(self.first) == node:
            return
        self.unlink(log, node)
        self.lead(log, node, log.get(self.first))


class Cache:
    def __init__(self, base, buckets, capacity):
        self.base, self.capacity = base, capacity
        self.table = Table(base + 1, buckets, capacity)
        self.list = Linked(base + 1 + self.table.cells, capacity)
        self.values = base + 1 + self.table.cells + self.list.cells
        self.cells = self.values + capacity - base

    def opening(self):
        return [self.capacity] + self.table.opening() + self.list.opening() + [0] * self.capacity

    def value(self, node):
        return self.values + node - 1

    def find(self, log, key):
        return self.table.chains.find(log, self.table.head(log, key), key)

    def take_out(self, log, key):
        return self.table.chains.delete(log, self.table.head(log, key), key)

    def run(self, log, thread, verb, *words):
        if verb == "len":
            return str(self.capacity - log.get(self.base))
        key = int(words[0])
        if verb == "cget":
            return said(self.get(log, key))
        if verb == "cdel":
            return said(self.delete(log, key))
        return self.put(log, key, int(words[1]), verb == "cputw")

    def get(self, log, key):
        node = self.find(log, key)
        if node is None:
            return None
        self.list.move_to_front(log, node)
        return log.get(self.value(node))

    def put(self, log, key, value, waits):
        node = self.find(log, key)
        if node is not None:
            self.list.move_to_front(log, node)
        else:
            self.make_room(log, waits)
            node = self.list.push(log, key)
            self.table.chains.put(log, self.table.head(log, key), key, node)
        log.set(self.value(node), value)
        return "ok"

    def make_room(self, log, waits):
        space = log.get(self.base)
        if space:
            log.set(self.base, space - 1)
        elif waits:
            raise Waits
        else:
            oldest = log.get(self.list.payload(log.get(self.list.last)))
            self.list.remove(log, self.take_out(log, oldest))

    def delete(self, log, key):
        node = self.take_out(log, key)
        if node is None:
            return None
        self.list.remove(log, node)
        log.set(self.base, log.get(self.base) + 1)
        return log.get(self.value(node))

    def shown(self, values):
        lines, node = [], values[self.list.first]
        while node:
            lines.append(f"{values[self.list.payload(node)]}={values[self.value(node)]}")
            node = values[self.list.next(node)]
        return lines


KINDS = {
    "loc": Location,
    "stack": Stack,
    "queue": Queue,
    "table": Table,
    "grow": Growing,
    "mvar": OnePlace,
    "promise": OnePlace,
    "acc": Accumulator,
    "cache": Cache,
}
