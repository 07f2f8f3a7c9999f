"""Writes a large script of locations to standard output.

    python3 tools/ring/scripts.py largest SEED    16 threads of 4,096 commands on eight locations that all share
    python3 tools/ring/scripts.py ring ROUNDS     16 threads that wait for each other in a ring, so many times round
"""

import random
import sys

THREADS = 16
COMMANDS = 4096
LOCATIONS = "abcdefgh"
FUNCTIONS = ["add", "max", "min", "and", "or", "xor"]
RELATIONS = ["eq", "ne", "lt", "le", "gt", "ge"]


def operation(drawn):
    """A command on locations that never waits."""
    one, other = drawn.choice(LOCATIONS), drawn.choice(LOCATIONS)
    number, small = drawn.randrange(1000), drawn.randrange(4)
    return drawn.choice(
        [
            f"get {one}",
            f"set {one} {number}",
            f"xchg {one} {number}",
            f"swap {one} {other}",
            f"cas {one} {small} {number}",
            f"add {one} {number}",
            f"incr {one}",
            f"decr {one}",
            f"update {one} {drawn.choice(FUNCTIONS)} {small}",
            f"modify {one} {drawn.choice(FUNCTIONS)} {small}",
        ]
    )


def block(drawn):
    """A transfer, or two alternatives of which the second doesn't wait."""
    one, other = drawn.choice(LOCATIONS), drawn.choice(LOCATIONS)
    if drawn.randrange(2):
        return f"atomic\nincr {one}\ndecr {other}\nend"
    relation = drawn.choice(RELATIONS)
    return f"atomic\nincr {one}\ncheck {other} {relation} {drawn.randrange(500)}\nor\nget {one}\nend"


def largest(seed):
    drawn = random.Random(seed)
    lines = ["kcas 1"] + [f"loc {name} {drawn.randrange(1000)}" for name in LOCATIONS]
    for _ in range(THREADS):
        lines.append("thread")
        lines += [block(drawn) if drawn.randrange(20) == 0 else operation(drawn) for _ in range(COMMANDS)]
    return lines


def ring(rounds):
    """Each thread waits until the one before it has come to the round, and follows; the first waits for the last one."""
    lines = ["kcas 1"] + [f"loc r{thread} 0" for thread in range(THREADS)]
    for thread in range(THREADS):
        lines.append("thread")
        for turn in range(rounds):
            awaited = turn + 1 if thread else turn
            lines += ["atomic", f"check r{(thread - 1) % THREADS} eq {awaited}", f"set r{thread} {turn + 1}", "end"]
    return lines


made = {"largest": largest, "ring": ring}[sys.argv[1]](int(sys.argv[2]))
print("\n".join(made))
