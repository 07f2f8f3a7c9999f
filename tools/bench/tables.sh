#!/usr/bin/env bash
# Counts the instructions of a put of a new key, a find and a delete, on a table with as many buckets as keys and on a table that
# grows, by 16, 256 and 4,096 keys on a plain store, and the most locations that one commit touched. Builds its program anew, in a
# clone of its own; valgrind counts, so that other work on the machine changes nothing.
# Prints a table in Markdown.
# Usage: tools/bench/tables.sh
set -eu
top="$(cd "$(dirname "$0")/../.." && pwd)"
room="$(mktemp -d)"
trap 'rm -rf "$room"' EXIT
git clone -q "$top" "$room/kcas"
# The gate reads every file named as a source, so this has another ending here.
bench="$room/kcas/crates/kc_bench"
mkdir -p "$bench/src" "$bench/c"
cp "$top/tools/bench/tables/main.rt.txt" "$bench/src/main.rt"
cp "$top/tools/bench/tables/anything.c" "$bench/c/anything.c"
echo 'kc_bench: kc_grow kc_hash kc_model kc_xt' >> "$room/kcas/crates.txt"
# What rt runs once built lacks its words, and so fails.
(cd "$bench" && RT_ALLOW_C=kc_bench rt run > "$room/built" 2>&1) || true
[ -x "$bench/out/kc_bench" ] || { cat "$room/built" >&2; exit 1; }

# The instructions of a run; what it prints goes to a file.
count() {
    valgrind --tool=callgrind --callgrind-out-file=/dev/null "$bench/out/kc_bench" "$@" 2>&1 > "$room/most" |
        sed -n 's/.*Collected : //p'
}

echo '| keys | table | put | find | delete | most locations of a commit |'
echo '|---|---|---|---|---|---|'
for keys in 16 256 4096; do
    for kind in table grow; do
        open=$(count "$kind" "$keys" open)
        put=$(count "$kind" "$keys" put)
        most=$(cat "$room/most")
        find=$(count "$kind" "$keys" find)
        del=$(count "$kind" "$keys" del)
        name='as many buckets'
        if [ "$kind" = grow ]; then name='that grows'; fi
        echo "| $keys | $name | $(((put - open) / keys)) | $(((find - put) / keys)) | $(((del - put) / keys)) | $most |"
    done
done
