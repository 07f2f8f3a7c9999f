#!/usr/bin/env bash
# Times transactions that only read, as views and as commits, on the lock-free store and on the store behind one lock, beside GHC's STM
# and a C++ shared mutex, by 1, 2 and 4 threads: one location, eight locations, a find of 1,024 keys. Builds all anew, in a clone of its
# own, and runs them in turn; a peer that this machine can't build is left out with a line on standard error.
# Prints what each program prints: what, how, threads, tenths of nanoseconds of one, a sum that all forms share.
# Usage: tools/bench/views.sh [RUNS]
set -eu
top="$(cd "$(dirname "$0")/../.." && pwd)"
views="$top/tools/bench/views"
room="$(mktemp -d)"
trap 'rm -rf "$room"' EXIT
peers=()

# The program in Rattle over both stores. The gate reads every file named as a source, so it has another ending here.
build_stores() {
    git clone -q "$top" "$room/kcas"
    local bench="$room/kcas/crates/kc_bench_views"
    mkdir -p "$bench/src" "$bench/c"
    cp "$views/main.rt.txt" "$bench/src/main.rt"
    cp "$views/anything.c" "$bench/c/anything.c"
    echo 'kc_bench_views: kc_hash kc_loc kc_locked kc_model kc_store kc_xt' >> "$room/kcas/crates.txt"
    # What rt runs once built are all rounds: they count for nothing.
    (cd "$bench" && RT_ALLOW_C=kc_bench_views rt run > "$room/built" 2>&1) || { cat "$room/built" >&2; exit 1; }
    cp "$bench/out/kc_bench_views" "$room/stores"
}

# A peer by its name, and the command that builds it.
build_peer() {
    local name=$1
    shift
    if "$@" -o "$room/$name" > "$room/built" 2>&1; then
        peers+=("$room/$name")
    else
        echo "$name: left out, since $1 doesn't build it here" >&2
    fi
}

build_stores
build_peer stm ghc -O2 -threaded -rtsopts -with-rtsopts=-A64m -outputdir "$room/stm.o" "$views/Views.hs"
build_peer mutex g++ -std=c++17 -O2 -march=x86-64-v2 -pthread "$views/shared_mutex.cpp"

for _ in $(seq "${1:-3}"); do
    "$room/stores"
    for peer in "${peers[@]}"; do
        "$peer"
    done
done
