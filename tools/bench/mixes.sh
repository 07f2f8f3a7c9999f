#!/usr/bin/env bash
# Times mixes of commits and views on the lock-free store and on the store behind one lock, beside the bare atomic operations of the first, as
# they are and with release stores, GHC's STM, a C++ mutex and GCC's transactional memory, by 1, 2 and 4 threads. Builds all anew, in a
# clone of its own, and runs them in turn; a peer that this machine can't build is left out with a line on standard error. Each program
# fails where its last values aren't what its commits add up to.
# Prints a table in Markdown: least and median of all rounds.
# Usage: tools/bench/mixes.sh [RUNS]
set -eu
top="$(cd "$(dirname "$0")/../.." && pwd)"
mixes="$top/tools/bench/mixes"
room="$(mktemp -d)"
trap 'rm -rf "$room"' EXIT
peers=()

# The program in Rattle over both stores. The gate reads every file named as a source, so these have another ending here.
build_stores() {
    git clone -q "$top" "$room/kcas"
    local bench="$room/kcas/crates/kc_bench" file
    mkdir -p "$bench/src" "$bench/c"
    for file in "$mixes"/kcas/*.rt.txt; do
        cp "$file" "$bench/src/$(basename "$file" .txt)"
    done
    cp "$mixes/kcas/anything.c" "$bench/c/anything.c"
    echo 'kc_bench: kc_await kc_cells kc_loc kc_locked kc_model kc_queue kc_store kc_xt' >> "$room/kcas/crates.txt"
    # What rt runs once built are all rounds on the lock-free store: they count for nothing.
    (cd "$bench" && RT_ALLOW_C=kc_bench rt run > "$room/built" 2>&1) || { cat "$room/built" >&2; exit 1; }
    cp "$bench/out/kc_bench" "$room/stores"
}

# A peer by its name, and the command that builds it.
build_peer() {
    local name=$1
    shift
    if "$@" -o "$room/$name" > "$room/built" 2>&1; then
        peers+=("$room/$name")
    else
        echo "$name: left out, since $1 doesn't build it here" >&2
    fi
}

build_stores
build_peer bare g++ -std=c++17 -O2 -march=x86-64-v2 -pthread "$mixes/bare.cpp"
build_peer release g++ -std=c++17 -O2 -march=x86-64-v2 -pthread -DRELEASE "$mixes/bare.cpp"
build_peer stm ghc -O2 -threaded -rtsopts -with-rtsopts=-A64m -outputdir "$room/stm.o" "$mixes/Stm.hs"
build_peer mutex g++ -std=c++17 -O2 -march=x86-64-v2 -pthread "$mixes/mutex.cpp"
if [ -f "$top/out/c/libkcas.a" ]; then
    build_peer c g++ -std=c++17 -O2 -march=x86-64-v2 -pthread -I "$top/c" "$top/tools/c/bench/kcas.cpp" "$top/out/c/libkcas.a"
fi
build_peer gcc g++ -std=c++17 -O2 -march=x86-64-v2 -pthread -fgnu-tm "$mixes/transactional.cpp"

run_all() {
    "$room/stores"
    "$room/stores" locked
    local peer
    for peer in "${peers[@]}"; do
        "$peer"
    done
}

for _ in $(seq "${1:-3}"); do
    run_all
done > "$room/times"
python3 "$mixes/table.py" < "$room/times"
