"""Lines 'who mix threads tenths' on standard input; a table in Markdown on standard output.

Each row is a mix by so many threads, each cell the least and the median of who stands above it, in nanoseconds per commit, of a
hand-over in microseconds. Who wasn't run on a mix has '-'.
"""

import collections
import statistics
import sys

WHO = {
    "kcas": "lock-free store",
    "bare": "its atomic operations alone, in C++",
    "release": "the same with release stores",
    "c": "the same store from C",
    "locked": "store behind one lock",
    "stm": "GHC's STM",
    "mutex": "C++ mutex",
    "gcc": "GCC's transactional memory",
}
MIXES = {
    "storm": "commands of a storm",
    "same": "all on one location",
    "own": "each on its own",
    "transfers": "a transfer",
    "reads": "eight reads, one put",
    "finds": "nine finds to a put",
    "queue": "a queue of 16",
    "turns": "a hand-over (µs)",
}

times = collections.defaultdict(list)
for line in sys.stdin:
    who, mix, threads, tenths = line.split()
    times[who, mix, int(threads)].append(int(tenths) / 10)


def shown(mix, all_times):
    if not all_times:
        return "-"
    least, middle = min(all_times), statistics.median(all_times)
    if mix == "turns":
        return f"{least / 1000:.2f} / {middle / 1000:.2f}"
    return f"{least:.0f} / {middle:.0f}"


there = [who for who in WHO if any(key[0] == who for key in times)]
print("| mix | threads |" + "".join(f" {WHO[who]} |" for who in there))
print("|---|---|" + "---|" * len(there))
for mix in MIXES:
    for threads in sorted({key[2] for key in times if key[1] == mix}):
        cells = "".join(f" {shown(mix, times.get((who, mix, threads)))} |" for who in there)
        print(f"| {MIXES[mix]} | {threads} |{cells}")
