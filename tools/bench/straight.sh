#!/usr/bin/env bash
# Times looks and commits in one call beside the bare sequence of their atomic operations in C: alone, and by 2 and 4 threads on
# locations of their own and on the same ones. Builds both anew, in a clone of its own, and runs them in turn.
# Prints a table in Markdown: least and median of all rounds, in nanoseconds of one call.
# Usage: tools/bench/straight.sh [RUNS]
set -eu
top="$(cd "$(dirname "$0")/../.." && pwd)"
room="$(mktemp -d)"
trap 'rm -rf "$room"' EXIT
git clone -q "$top" "$room/kcas"
# The gate reads every file named as a source, so this has another ending here.
bench="$room/kcas/crates/kc_bench"
mkdir -p "$bench/src" "$bench/c"
cp "$top/tools/bench/straight/main.rt.txt" "$bench/src/main.rt"
cp "$top/tools/bench/straight/anything.c" "$bench/c/anything.c"
echo 'kc_bench: kc_machine_steps kc_machine_words kc_model kc_table' >> "$room/kcas/crates.txt"
(cd "$bench" && RT_ALLOW_C=kc_bench rt run > "$room/built" 2>&1) || { cat "$room/built" >&2; exit 1; }
gcc -O2 -march=x86-64-v2 -pthread "$top/tools/bench/bare.c" -o "$room/bare"
for _ in $(seq "${1:-3}"); do
    "$bench/out/kc_bench" | sed 's/^/kcas /'
    for puts in 1 2 4; do
        "$room/bare" "$puts" 1 own 400 5000
    done
    "$room/bare" 1 1 own 400 5000 8
    for puts in 1 2; do
        for threads in 2 4; do
            for place in own same; do
                "$room/bare" "$puts" "$threads" "$place" 200 20000
            done
        done
    done
done > "$room/times"
python3 "$top/tools/bench/straight/table.py" < "$room/times"
