#!/usr/bin/env bash
# Runs the largest script, 16 threads of 4,096 commands on eight locations, a hundred times on each store, and 16 threads that wait for
# each other in a ring, a thousand times round; a second reader compares each text. Then looks how much processor time is taken where
# one thread waits for seconds, and another sleeps. Outside the gate; fails where a text is wrong or a wait takes processor time.
# Usage: tools/ring.sh [RUNS]
set -eu
top="$(cd "$(dirname "$0")/.." && pwd)"
room="$(mktemp -d)"
trap 'rm -rf "$room"' EXIT
runs="${1:-100}"

knows_store() {
    local status=0
    "$top/kcas" run --store "$1" < /dev/null > /dev/null 2>&1 || status=$?
    [ "$status" != 2 ]
}

# Runs the script on a store, and has its text compared; adds the time of the run, in nanoseconds.
run_and_compare() {
    local start
    start=$(date +%s%N)
    "$top/kcas" run --store "$1" < "$room/script" > "$room/text"
    took=$((took + $(date +%s%N) - start))
    python3 "$top/tools/second/reader.py" "$room/script" "$room/text"
}

run_largest() {
    local took=0
    for seed in $(seq "$runs"); do
        python3 "$top/tools/ring/scripts.py" largest "$seed" > "$room/script"
        run_and_compare "$1"
    done
    echo "$1: the largest script, $runs texts right, $((took / runs / 1000000)) ms each"
}

run_ring() {
    local took=0
    python3 "$top/tools/ring/scripts.py" ring 1000 > "$room/script"
    run_and_compare "$1"
    echo "$1: 16 threads a thousand times round a ring, the text right, $((took / 1000000)) ms"
}

# The gate reads every file named as a source, so this has another ending here.
build_parked() {
    git clone -q "$top" "$room/kcas"
    local crate="$room/kcas/crates/kc_parked"
    mkdir -p "$crate/src" "$crate/c"
    cp "$top/tools/ring/parked/main.rt.txt" "$crate/src/main.rt"
    cp "$top/tools/ring/parked/anything.c" "$crate/c/anything.c"
    echo 'kc_parked: kc_await kc_loc kc_locked kc_model kc_store' >> "$room/kcas/crates.txt"
    (cd "$crate" && RT_ALLOW_C=kc_parked rt run > "$room/built" 2>&1) || { cat "$room/built" >&2; exit 1; }
    cp "$crate/out/kc_parked" "$room/parked"
}

# The processor time of a process since it began, in hundredths of a second.
processor_time() {
    awk '{ print $14 + $15 }' "/proc/$1/stat"
}

# The program waits for four seconds; after three it has taken two hundredths at most.
watch_parked() {
    local store=$1 took
    shift
    "$room/parked" "$@" &
    sleep 3
    took=$(processor_time $!)
    wait $!
    echo "$store: a wait of three seconds took $took hundredths of a second of a processor"
    [ "$took" -le 2 ]
}

for store in lock kcas; do
    if ! knows_store "$store"; then
        echo "the program knows no store $store" >&2
        continue
    fi
    run_largest "$store"
    run_ring "$store"
done
build_parked
watch_parked lock locked
watch_parked kcas
