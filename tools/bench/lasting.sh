#!/usr/bin/env bash
# Times adds on the store that lasts beside the plain one, and renewals of 65,535 locations; or soaks it: adds by four threads, with sums
# that must be right, and stores whose memory is refused near their end. Builds all anew without proofs, in a clone of its own.
# Usage: tools/bench/lasting.sh [RUNS]
#        tools/bench/lasting.sh soak THOUSANDS      (so many thousand adds by each thread: in short eras, and on one location in whole ones)
set -eu
top="$(cd "$(dirname "$0")/../.." && pwd)"
room="$(mktemp -d)"
trap 'rm -rf "$room"' EXIT
what=adds
[ "${1:-}" != soak ] || what=soak

# The gate reads every file named as a source, so the programs have another ending here.
git clone -q "$top" "$room/kcas"
crate="$room/kcas/crates/kc_bench_lasting"
mkdir -p "$crate/src" "$crate/c"
cp "$top/tools/bench/lasting/$what.rt.txt" "$crate/src/main.rt"
cp "$top/tools/bench/lasting/anything.c" "$crate/c/anything.c"
echo 'kc_bench_lasting: kc_lasting kc_await kc_loc kc_model kc_queue kc_store kc_xt' >> "$room/kcas/crates.txt"
program="$room/program"
"$room/kcas/tools/bench/unproved/build.sh" kc_bench_lasting "$program" > "$room/built" 2>&1 || { cat "$room/built" >&2; exit 1; }

# Stores near the last versions, to which so many calls for memory are granted, and then so many refused. With fewer than 40 none opens.
want_memory() {
    "${CC:-cc}" -O1 -shared -fPIC "$top/tools/bench/lasting/failing.c" -o "$room/failing.so" -ldl
    local granted
    for granted in $(seq 40 80); do
        GRANTED=$granted REFUSED=$((granted * 400)) LD_PRELOAD="$room/failing.so" "$program" wanting 50
    done
}

if [ "$what" = soak ]; then
    "$program" short "$2"
    want_memory
    "$program" long "$2"
    exit
fi
for _ in $(seq "${1:-3}"); do
    "$program"
done
