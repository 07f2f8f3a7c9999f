#!/usr/bin/env bash
# Times one add, set and get by the library for C, and an add by kcas_add, beside Rattle's own call of the same, in turn, each in a program
# of its own, and counts the instructions where valgrind is installed. Rattle's own call is made twice: of an operation that the compiler
# knows, and of one that is chosen as the program runs, as that of kcas_commit is. Builds the programs in Rattle anew, in a clone of its own. The library is made
# first: tools/c/build.sh. What is proved already goes along where KCAS_PROVED names a tree that has it.
# Usage: tools/c/one.sh [RUNS]
set -eu
top="$(cd "$(dirname "$0")/../.." && pwd)"
to="${KCAS_OUT:-$top/out/c}"
one="$top/tools/c/bench/one"
room="$(mktemp -d)"
trap 'rm -rf "$room"' EXIT
git clone -q "$top" "$room/kcas"
for made in "${KCAS_PROVED:-$top}"/crates/*/out/rlib; do
    crate="$(basename "$(dirname "$(dirname "$made")")")"
    [ -d "$made" ] && mkdir -p "$room/kcas/crates/$crate/out" && cp -a "$made" "$room/kcas/crates/$crate/out/"
done
own() {
    local bench="$room/kcas/crates/kc_one_$1_$2"
    mkdir -p "$bench/src" "$bench/c"
    sed "s/WHO/$1/; s/NAME/$2/; s/CHOICE/$3/" "$one/main.rt.txt" > "$bench/src/main.rt"
    cp "$top/tools/bench/single/anything.c" "$bench/c/anything.c"
    echo "kc_one_$1_$2: kc_loc kc_model kc_store" >> "$room/kcas/crates.txt"
    (cd "$bench" && RT_ALLOW_C="kc_one_$1_$2" rt run > "$room/built" 2>&1) || { cat "$room/built" >&2; exit 1; }
    cp "$bench/out/kc_one_$1_$2" "$room/$1_$2"
}
build() {
    own own "$1" "$2"
    own data "$1" "[$2, LocOp::Exchange(at, number), LocOp::Incr(at), LocOp::Decr(at)][(each % 4) as usize]"
    gcc -std=gnu11 -O2 -I "$top/c" -DNAME="\"$1\"" -DVERB="$3" "$one/one.c" "$to/libkcas.a" -o "$room/c_$1"
}
build add "LocOp::FetchAdd(at, number)" KCAS_ADD
build set "LocOp::Set(at, number)" KCAS_SET
build get "LocOp::Get(at)" KCAS_GET
gcc -std=gnu11 -O2 -I "$top/c" -DNAME='"kcas_add"' -DBY_ADD "$one/one.c" "$to/libkcas.a" -o "$room/c_kcas_add"
instructions() {
    valgrind --tool=callgrind --callgrind-out-file=/dev/null "$1" "$2" 2>&1 > /dev/null | awk '/Collected/ { print $NF }'
}
{
    for _ in $(seq "${1:-20}"); do
        for way in add set get; do
            "$room/own_$way"
            "$room/data_$way"
            "$room/c_$way"
        done
        "$room/c_kcas_add"
    done
    if command -v valgrind > /dev/null; then
        for program in {own,data,c}_{add,set,get} c_kcas_add; do
            few=$(instructions "$room/$program" 1000)
            echo "${program/_/ } $((($(instructions "$room/$program" 3000) - few) / 2000))"
        done
    fi
} > "$room/times"
python3 "$one/table.py" < "$room/times"
