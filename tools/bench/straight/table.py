"""Lines 'who what puts mode threads place tenths' on standard input; a table in Markdown on standard output.

Each row has the least and the median of kcas and of C, in nanoseconds, and the ratio of the least.
"""

import collections
import statistics
import sys

times = collections.defaultdict(list)
for line in sys.stdin:
    who, *what, tenths = line.split()
    times[who, *what].append(int(tenths) / 10)


def shown(all_times):
    return f"{min(all_times):.1f} / {statistics.median(all_times):.1f}" if all_times else "-"


print("| call | threads | locations | kcas, least / median | C, least / median | ratio of the least |")
print("|---|---|---|---|---|---|")
for who, call, puts, mode, threads, place in list(times):
    if who != "kcas":
        continue
    ours = times["kcas", call, puts, mode, threads, place]
    bare = times.get(("C", call, puts, mode, threads, place))
    name = "look" if call == "look" else f"commit of {puts}{' behind eight reads' if call == 'eight' else ''}, {mode}"
    ratio = f"{min(ours) / min(bare):.2f}" if bare else "-"
    print(f"| {name} | {threads} | {place} | {shown(ours)} | {shown(bare)} | {ratio} |")
