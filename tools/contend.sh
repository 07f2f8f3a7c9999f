#!/usr/bin/env bash
# Makes a million commits of eight seats on four threads that contend for two locations of one table, and compares what stands
# there in the end with what the seats were told: once as a program is built, once with the address sanitizer and all checks.
# Builds both anew, in a clone of its own. Fails where the sums don't hold.
# Usage: tools/contend.sh
set -eu
top="$(cd "$(dirname "$0")/.." && pwd)"
room="$(mktemp -d)"
trap 'rm -rf "$room"' EXIT
git clone -q "$top" "$room/kcas"
# The gate reads every file named as a source, so this has another ending here.
crate="$room/kcas/crates/kc_contend"
mkdir -p "$crate/src" "$crate/c"
cp "$top/tools/contend/main.rt.txt" "$crate/src/main.rt"
cp "$top/tools/contend/anything.c" "$crate/c/anything.c"
echo 'kc_contend: kc_machine_steps kc_machine_words kc_model kc_table' >> "$room/kcas/crates.txt"
cd "$crate"
RT_ALLOW_C=kc_contend rt run > "$room/built" 2>&1 || { cat "$room/built" >&2; exit 1; }
echo 'as it is built'
time out/kc_contend
echo 'with the address sanitizer'
time RT_ALLOW_C=kc_contend rt try --seconds 600
