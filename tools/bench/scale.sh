#!/usr/bin/env bash
# Counts commits per second by 1 to 8 threads on both stores, each thread on a location of its own, on eight that they share, and on one;
# and the memory of the program by locations and by threads. Draws both as docs/pictures/scale.svg and memory.svg, which say on what machine and
# of which commit. Outside the gate: the numbers are those of a quiet machine.
# Usage: tools/bench/scale.sh [RUNS]
set -eu
top="$(cd "$(dirname "$0")/../.." && pwd)"
mixes="$top/tools/bench/mixes"
room="$(mktemp -d)"
trap 'rm -rf "$room"' EXIT

# The gate reads every file named as a source, so these have another ending here.
build_stores() {
    git clone -q "$top" "$room/kcas"
    local bench="$room/kcas/crates/kc_bench" file
    mkdir -p "$bench/src" "$bench/c"
    for file in "$mixes"/kcas/*.rt.txt; do
        cp "$file" "$bench/src/$(basename "$file" .txt)"
    done
    cp "$mixes/kcas/anything.c" "$bench/c/anything.c"
    echo 'kc_bench: kc_await kc_cells kc_loc kc_locked kc_model kc_queue kc_store kc_xt' >> "$room/kcas/crates.txt"
    # What rt runs once built are all rounds on the lock-free store: they count for nothing.
    (cd "$bench" && RT_ALLOW_C=kc_bench rt run > "$room/built" 2>&1) || { cat "$room/built" >&2; exit 1; }
    cp "$bench/out/kc_bench" "$room/stores"
}

build_stores
"$top/kcas" run < "$top/examples/first.kcas" > /dev/null
for _ in $(seq "${1:-3}"); do
    "$room/stores" scale
    "$room/stores" scale locked
done > "$room/times"
machine="$(nproc) processors, $(sed -n 's/^model name[^:]*: //p' /proc/cpuinfo | head -n 1)"
commit="$(git -C "$top" rev-parse --short HEAD)"
python3 "$top/tools/bench/scale/plot.py" times "$machine, commit $commit" < "$room/times" > "$top/docs/pictures/scale.svg"
python3 "$top/tools/bench/scale/memory.py" "$top/crates/kcas/out/kcas" > "$room/memory"
python3 "$top/tools/bench/scale/plot.py" memory "the program, commit $commit" < "$room/memory" > "$top/docs/pictures/memory.svg"
