#!/usr/bin/env bash
# Times strings that are put, read and given back, on a shelf and in a slab behind a lock, and adds with a deadline that doesn't pass
# beside adds that wait for ever, by 1, 2 and 4 threads. Builds it anew, in a clone of its own.
# Prints a line for each: what, how, threads, tenths of nanoseconds of one, a sum that both forms share.
# Usage: tools/bench/shelf.sh [RUNS]
set -eu
top="$(cd "$(dirname "$0")/../.." && pwd)"
room="$(mktemp -d)"
trap 'rm -rf "$room"' EXIT

git clone -q "$top" "$room/kcas"
bench="$room/kcas/crates/kc_bench_shelf"
mkdir -p "$bench/src" "$bench/c"
# The gate reads every file named as a source, so it has another ending here.
cp "$top/tools/bench/shelf/main.rt.txt" "$bench/src/main.rt"
cp "$top/tools/bench/shelf/anything.c" "$bench/c/anything.c"
echo 'kc_bench_shelf: kc_await kc_loc kc_model kc_shelf kc_store kc_xt slab' >> "$room/kcas/crates.txt"
# What rt runs once built are all rounds: they count for nothing.
(cd "$bench" && RT_ALLOW_C=kc_bench_shelf rt run > "$room/built" 2>&1) || { cat "$room/built" >&2; exit 1; }
for _ in $(seq "${1:-3}"); do
    "$bench/out/kc_bench_shelf"
done
