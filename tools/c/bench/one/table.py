"""Lines 'WHO WAY tenths SUM' of rounds and 'WHO WAY instructions' on standard input; a table in Markdown on standard output."""

import collections
import statistics
import sys

times, counts = collections.defaultdict(list), {}
for line in sys.stdin:
    who, way, number, *rest = line.split()
    if rest:
        times[way, who].append(int(number) / 10)
    else:
        counts[way, who] = int(number)

PEERS = ("own", "data", "c")
# Each way from C, and Rattle's own call of the same.
WAYS = {"add": "add", "kcas_add": "add", "set": "set", "get": "get"}

print("| commit of one | Rattle's own call | by data | from C | to own | to data | instructions |")
print("|---|---|---|---|---|---|---|")
for way, own in WAYS.items():
    of = {who: times[way if who == "c" else own, who] for who in PEERS}
    said = [f"{min(of[who]):.1f} / {statistics.median(of[who]):.1f}" for who in PEERS]
    for who in PEERS[:2]:
        ratios = [kind(of["c"]) / kind(of[who]) for kind in (min, statistics.median)]
        said.append(" / ".join(f"{it:.2f}" for it in ratios))
    said.append(" / ".join(str(counts.get((way if who == "c" else own, who), "-")) for who in PEERS))
    print(f"| {'add by kcas_add' if way == 'kcas_add' else way} | {' | '.join(said)} |")
