#!/usr/bin/env python3
"""Compares the program's first fault with a slow second reader's on mutations of valid scripts.

    python3 tools/mutations.py [--seed N] [--count N] COMMAND..

Each mutation of a script of examples/, or of one that is made here, is given to COMMAND (as `./kcas run`) on standard
input; a fault is read off its line on standard error, and any other status but 3 means that there is none. The second reader
knows docs/SCRIPTS.md alone: what stands in each line, the order of the tests, the limits. With --write FILE the mutations
go to FILE instead, a byte 1 between them, and with --read FILE what some program found, a line `LINE WORDS` or another
word for each, is compared.
"""

import argparse
import pathlib
import random
import re
import subprocess
import sys

TOP = pathlib.Path(__file__).resolve().parent.parent

DECLARATIONS = {
    b"loc": ["v"],
    b"stack": ["c"],
    b"queue": ["c"],
    b"table": ["b", "c"],
    b"grow": ["c"],
    b"cache": ["b", "c"],
    b"mvar": [],
    b"promise": [],
    b"acc": ["k"],
}
RANGES = {"v": (0, 4294967295), "c": (1, 4096), "b": (1, 1024), "k": (1, 32)}
HEADERS = [[b"kcas", b"1"], [b"kcas", b"2"]]
# Words of version 2 alone.
NEW = [b"grow", b"limit"]
MOST_LIMIT = 256
MOST_THREADS = 16
SIZES = {
    b"loc": lambda n: 1,
    b"stack": lambda n: 1 + n[0],
    b"queue": lambda n: 2 + n[0],
    b"table": lambda n: 2 + n[0] + 3 * n[1],
    b"grow": lambda n: 3 + 4 * n[0],
    b"cache": lambda n: 6 + n[0] + 7 * n[1],
    b"mvar": lambda n: 2,
    b"promise": lambda n: 2,
    b"acc": lambda n: n[0],
}
COMMANDS = """
loc: get N, set N V, xchg N V, swap N N, cas N V V, add N V, incr N, decr N, update N F V, modify N F V, check N R V
stack: push N V, pop N, popw N, top N
queue: enq N V, deq N, deqw N, front N
table grow: put N V V, find N V, del N V
mvar: mput N V, mtake N, mpeek N
promise: resolve N V, await N, resolved N
acc: bump N V, total N
cache: cput N V V, cputw N V V, cget N V, cdel N V
stack queue table grow cache: len N
: cancel T
"""
FUNCTIONS = [b"add", b"max", b"min", b"and", b"or", b"xor"]
RELATIONS = [b"eq", b"ne", b"lt", b"le", b"gt", b"ge"]


def command_table():
    table = {}
    for row in COMMANDS.strip().split("\n"):
        kinds, commands = row.split(":")
        for command in commands.split(","):
            word, *fields = command.split()
            table[word.encode()] = ({k.encode() for k in kinds.split()}, fields)
    return table


TABLE = command_table()


class Found(Exception):
    pass


def wants(test, line, words):
    if not test:
        raise Found(f"{line} {words}")


def is_number(word, least, most):
    return re.fullmatch(rb"[0-9]{1,10}", word) is not None and least <= int(word) <= most


def is_name(word):
    return re.fullmatch(rb"[A-Za-z][A-Za-z0-9_]{0,31}", word) is not None


class Reader:
    def __init__(self):
        self.header = False
        self.version = 0
        self.follows_header = False
        self.kinds = {}
        self.cells = 0
        self.threads = 0
        self.commands = 0
        self.blocks = []  # of [level, line], the innermost last
        self.inside = 0  # commands and inner blocks of the outermost block

    def line(self, n, words):
        if not self.header:
            wants(words in HEADERS, n, "no header")
            self.header = True
            self.version = int(words[1])
            self.follows_header = True
            return
        word, args = words[0], words[1:]
        follows_header, self.follows_header = self.follows_header, False
        wants(self.version == 2 or word not in NEW, n, "unknown word")
        if word in DECLARATIONS:
            self.declaration(n, word, args)
        elif word in TABLE:
            self.command(n, word, args)
        elif word == b"thread":
            self.thread(n, args)
        elif word == b"atomic":
            self.atomic(n, args)
        elif word in (b"or", b"end"):
            self.other(n, word, args)
        elif word == b"limit":
            wants(follows_header, n, "word out of place")
            self.count(n, args, 1)
            wants(is_number(args[0], 1, MOST_LIMIT), n, "bad number")
        else:
            wants(False, n, "unknown word")

    def count(self, n, args, count):
        wants(len(args) >= count, n, "missing word")
        wants(len(args) <= count, n, "extra word")

    def declaration(self, n, word, args):
        wants(self.threads == 0, n, "word out of place")
        fields = DECLARATIONS[word]
        self.count(n, args, 1 + len(fields))
        wants(is_name(args[0]), n, "bad name")
        wants(args[0] not in self.kinds, n, "repeated name")
        for field, number in zip(fields, args[1:]):
            wants(is_number(number, *RANGES[field]), n, "bad number")
        size = SIZES[word]([int(number) for number in args[1:]])
        wants(self.cells + size <= 65535, n, "too many locations")
        self.cells += size
        self.kinds[args[0]] = word

    def room(self, n):
        if self.blocks:
            wants(self.inside < 16, n, "too many commands in a block")
            self.inside += 1
        else:
            wants(self.commands < 4096, n, "too many commands")
            self.commands += 1
            self.inside = 0

    def command(self, n, word, args):
        wants(self.threads > 0, n, "word out of place")
        kinds, fields = TABLE[word]
        self.count(n, args, len(fields))
        for field, text in zip(fields, args):
            if field == "N":
                wants(text in self.kinds, n, "unknown name")
                wants(self.kinds[text] in kinds, n, "wrong kind")
            elif field == "V":
                wants(is_number(text, 0, 4294967295), n, "bad number")
            elif field == "T":
                wants(is_number(text, 1, MOST_THREADS), n, "bad number")
            elif field == "F":
                wants(text in FUNCTIONS, n, "unknown word")
            else:
                wants(text in RELATIONS, n, "unknown word")
        self.room(n)

    def thread(self, n, args):
        if self.blocks:
            wants(False, self.blocks[-1][1], "unclosed block")
        self.count(n, args, 0)
        wants(self.threads < MOST_THREADS, n, "too many threads")
        self.threads += 1
        self.commands = 0

    def atomic(self, n, args):
        wants(self.threads > 0, n, "word out of place")
        self.count(n, args, 0)
        self.room(n)
        level = self.blocks[-1][0] + 1 if self.blocks else 0
        wants(level <= 8, n, "too deep")
        self.blocks.append([level, n])

    def other(self, n, word, args):
        wants(self.blocks, n, "word out of place")
        self.count(n, args, 0)
        if word == b"end":
            self.blocks.pop()
        else:
            wants(self.blocks[-1][0] < 8, n, "too deep")
            self.blocks[-1][0] += 1


def first_fault(script):
    reader = Reader()
    try:
        for n, text in enumerate(script.split(b"\n"), 1):
            words = [word for word in re.split(rb"[ \t\r]", text) if word]
            if words and not words[0].startswith(b"#"):
                reader.line(n, words)
        wants(reader.header, 1, "no header")
        if reader.blocks:
            wants(False, reader.blocks[-1][1], "unclosed block")
    except Found as found:
        return str(found)
    return None


# ---- scripts


def made(rng):
    """A valid script with blocks, close to some limit."""
    lines = list(rng.choice([[b"kcas 1"], [b"kcas 2"], [b"kcas 2", b"limit 0256"], [b"kcas 2", b"limit 1"]]))
    names = {}
    for kind, fields in DECLARATIONS.items():
        if kind in NEW and lines[0] == b"kcas 1":
            continue
        name = kind[:1].upper() + b"_" + str(rng.randrange(10)).encode()
        lines.append(b" ".join([kind, name] + [str(rng.randint(1, min(RANGES[f][1], 9))).encode() for f in fields]))
        names[kind] = name
    if rng.random() < 0.3:
        lines += [b"cache big_%d 1024 4096" % i for i in range(2)]

    def command():
        word = rng.choice(sorted(TABLE))
        kinds, fields = TABLE[word]
        text = [word]
        for field in fields:
            text.append(
                names[rng.choice(sorted(kinds & names.keys()))] if field == "N"
                else rng.choice(FUNCTIONS) if field == "F"
                else rng.choice(RELATIONS) if field == "R"
                else rng.choice([b"1", b"016"]) if field == "T"
                else rng.choice([b"0", b"7", b"0000000001", b"4294967295"])
            )
        return b" ".join(text)

    def block(level, left):
        lines.append(b"atomic")
        while left[0] > 0 and rng.random() < 0.8:
            left[0] -= 1
            if level < 8 and rng.random() < 0.3:
                block(level + 1, left)
            elif level < 8 and rng.random() < 0.3:
                level += 1
                lines.append(b"or")
            else:
                lines.append(command())
        lines.append(b"end")

    for _ in range(rng.choice([0, 1, 2, 16])):
        lines.append(b"thread")
        for _ in range(rng.randrange(4)):
            if rng.random() < 0.5:
                block(0, [16])
            else:
                lines.append(command())
    return b"\n".join(lines) + b"\n"


def mutated(rng, script):
    lines = script.split(b"\n")
    for _ in range(rng.choice([1, 1, 1, 2, 3])):
        i = rng.randrange(len(lines))
        way = rng.randrange(8)
        if way == 0 and script:
            text = b"\n".join(lines)
            at = rng.randrange(len(text)) if text else 0
            lines = (text[:at] + bytes([rng.choice(b"\n #_019azAZ\t\r\x00\xff")]) + text[at + 1 :]).split(b"\n")
        elif way == 1 and len(lines) > 1:
            del lines[i]
        elif way == 2:
            lines.insert(i, lines[i])
        elif way == 3:
            line = lines.pop(i)
            lines.insert(rng.randrange(len(lines) + 1), line)
        elif way == 4:
            words = lines[i].split()
            if words:
                k = rng.randrange(len(words))
                words[k] = rng.choice(sorted(TABLE) + sorted(DECLARATIONS) + [b"or", b"end", b"thread", b"atomic", b"4294967296", b"0", b"4097", b"limit", b"1", b"2", b"17", b"257"] + words)
                lines[i] = b" ".join(words)
        elif way == 5:
            lines[i] = lines[i] + rng.choice([b" 1", b" x", b" #", b"\r", b" ", b"0"])
        elif way == 6:
            lines[i:i] = [lines[i]] * rng.choice([8, 16, 17] * 9 + [4096])
        else:
            at = lines.index(b"thread") if b"thread" in lines else i
            lines.insert(at, b"cache more_%d 1024 %d" % (rng.randrange(100), rng.choice([1, 862, 4096])))
    return b"\n".join(lines)


def of_program(command, script):
    done = subprocess.run(command, input=script, capture_output=True, timeout=60)
    if done.returncode != 3:
        return None
    line = re.fullmatch(r"kcas: part 0 line (\d+): (.+)\n", done.stderr.decode())
    return f"{line[1]} {line[2]}"


def main():
    parser = argparse.ArgumentParser(description=__doc__.split("\n")[0])
    parser.add_argument("--seed", type=int, default=1)
    parser.add_argument("--count", type=int, default=3000)
    parser.add_argument("--write")
    parser.add_argument("--read")
    parser.add_argument("command", nargs="*")
    asked = parser.parse_args()
    rng = random.Random(asked.seed)
    examples = [path.read_bytes() for path in sorted((TOP / "examples").glob("*.kcas"))]
    valid = [script for script in examples if first_fault(script) is None]
    scripts = []
    while len(scripts) < asked.count:
        base = rng.choice(valid) if rng.random() < 0.4 else made(rng)
        scripts.append(mutated(rng, base).replace(b"\x01", b"?"))
    if asked.write:
        pathlib.Path(asked.write).write_bytes(b"\x01".join(scripts))
        return 0
    told = pathlib.Path(asked.read).read_text().splitlines() if asked.read else None
    differ = 0
    reasons = {}
    for i, script in enumerate(scripts):
        mine = first_fault(script)
        if told is not None:
            theirs = told[i] if told[i][0].isdigit() else None
        else:
            theirs = of_program(asked.command, script)
        reason = (mine or "0 none").split(" ", 1)[1]
        reasons[reason] = reasons.get(reason, 0) + 1
        if mine != theirs:
            differ += 1
            print(f"script {i}: {mine} here, {theirs} there\n{script!r}")
    for reason, count in sorted(reasons.items(), key=lambda r: -r[1]):
        print(f"{count:5} {reason}")
    print(f"{len(scripts)} scripts, {differ} differences")
    return 1 if differ else 0


if __name__ == "__main__":
    sys.exit(main())
