#!/usr/bin/env bash
# Runs the largest script, padded to a megabyte, on each store, and checks its text: prints what each run and each check took, in
# milliseconds of a processor and kilobytes of memory, so many times (three, if none is named). Outside the gate; fails where a text
# is not legal, and tells, but does not fail, where a check took more than the run that printed its text.
# Usage: tools/checks.sh [RUNS [PROGRAM]]
set -eu
top="$(cd "$(dirname "$0")/.." && pwd)"
program="${2:-$top/crates/kcas/out/kcas}"
[ $# -gt 1 ] || "$top/kcas" run < "$top/examples/first.kcas" > /dev/null
room="$(mktemp -d)"
trap 'rm -rf "$room"' EXIT
python3 "$top/tools/ring/scripts.py" largest 1 > "$room/script"
python3 - "$room/script" <<'PAD'
import os, sys
left = 1_048_576 - os.path.getsize(sys.argv[1])
with open(sys.argv[1], "a") as file:
    file.write("#" * (left - 1) + "\n")
PAD
python3 - "$program" "$room" "${1:-3}" <<'MEASURE'
import os, sys

program, room, runs = sys.argv[1], sys.argv[2], int(sys.argv[3])


def cost(words, given, written):
    """Milliseconds and kilobytes that a call takes."""
    child = os.fork()
    if child == 0:
        os.dup2(os.open(given, os.O_RDONLY), 0)
        os.dup2(os.open(written, os.O_WRONLY | os.O_CREAT | os.O_TRUNC), 1)
        os.execv(program, [program, *words])
    _, status, used = os.wait4(child, 0)
    if status:
        sys.exit(f"checks.sh: {' '.join(words)} ended with {os.waitstatus_to_exitcode(status)}")
    return round(1000 * (used.ru_utime + used.ru_stime)), used.ru_maxrss


script, text = f"{room}/script", f"{room}/text"
for store in ("kcas", "lock"):
    ran, checked = [], []
    for _ in range(runs):
        ran.append(cost(["run", "--store", store], script, text))
        checked.append(cost(["check", script, text], os.devnull, os.devnull))
    for what, costs in (("run", ran), ("check", checked)):
        print(f"{store} {what}: " + ", ".join(f"{ms} ms {kb} KB" for ms, kb in costs))
    for at, name in ((0, "time"), (1, "memory")):
        if min(it[at] for it in checked) > min(it[at] for it in ran):
            print(f"{store}: a check takes more {name} than its run")
MEASURE
