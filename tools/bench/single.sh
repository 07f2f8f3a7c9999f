#!/usr/bin/env bash
# Times single commits of one caller of the lock-free store by what their transaction does, a hang with its leave, and the opening of
# a store, reads beside a bare load and those of GHC where they can be built; prints bytes of what lies with callers. Builds the program
# anew, in a clone of its own.
# Prints a table in Markdown: least and median of all rounds, in nanoseconds.
# Usage: tools/bench/single.sh [RUNS]
set -eu
top="$(cd "$(dirname "$0")/../.." && pwd)"
room="$(mktemp -d)"
trap 'rm -rf "$room"' EXIT
git clone -q "$top" "$room/kcas"
# The gate reads every file named as a source, so this has another ending here.
bench="$room/kcas/crates/kc_bench"
mkdir -p "$bench/src" "$bench/c"
cp "$top/tools/bench/single/main.rt.txt" "$bench/src/main.rt"
cp "$top/tools/bench/single/anything.c" "$bench/c/anything.c"
echo 'kc_bench: kc_await kc_loc kc_locked kc_model kc_store kc_term kc_xt' >> "$room/kcas/crates.txt"
(cd "$bench" && RT_ALLOW_C=kc_bench rt run > "$room/built" 2>&1) || { cat "$room/built" >&2; exit 1; }
peers=("$bench/out/kc_bench")
build_peer() {
    local name=$1
    shift
    if "$@" -o "$room/$name" > "$room/built" 2>&1; then
        peers+=("$room/$name")
    else
        echo "$name: left out, since $1 doesn't build it here" >&2
    fi
}
build_peer load gcc -O2 "$top/tools/bench/single/load.c"
build_peer reads ghc -O2 -outputdir "$room/reads.o" "$top/tools/bench/single/Reads.hs"
for _ in $(seq "${1:-3}"); do
    for peer in "${peers[@]}"; do "$peer"; done
done > "$room/times"
python3 "$top/tools/bench/single/table.py" < "$room/times"
