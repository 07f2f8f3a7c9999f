"""Lines 'ns NAME tenths' and 'bytes NAME number' on standard input; two tables in Markdown on standard output.

The first has the least and the median of all rounds, in nanoseconds of one commit, the second bytes.
"""

import collections
import statistics
import sys

CASES = {
    "one": "one put",
    "two": "two puts",
    "eight": "eight reads and a put",
    "plain_eight": "the same on a plain store: its log, transaction and footprint alone",
    "either": "an alternative that is given up, and another",
    "value": "one put, answered by value",
    "get": "a look, as a transaction",
    "read": "a read without a transaction",
    "load": "a bare load",
    "tvar_io": "GHC's readTVarIO",
    "tvar": "GHC's atomically . readTVar",
    "hang": "a hang of one read and its leave",
    "open": "opening a store of 16 locations for 4 callers",
}


def shown(ns):
    """Tenths only where they tell."""
    return f"{ns:.0f}" if ns >= 10 else f"{ns:.1f}"


times, sizes = collections.defaultdict(list), {}
for line in sys.stdin:
    kind, name, number = line.split()
    if kind == "ns":
        times[name].append(int(number) / 10)
    elif kind == "bytes":
        sizes[name] = int(number)

print("| commit | least / median, ns |")
print("|---|---|")
for name, told in CASES.items():
    if name in times:
        print(f"| {told} | {shown(min(times[name]))} / {shown(statistics.median(times[name]))} |")
print("\n| of | bytes |")
print("|---|---|")
for name, size in sizes.items():
    print(f"| {name.replace('_', ' ')} | {size:,} |")
