#!/usr/bin/env bash
# Tries the tests of all crates, and all programs, with no proof: it compiles and runs each, as many side by side as there are
# processors, if memory holds them, and compares what a program writes with what the gate wants of it. It says how far it is; its
# last line counts, and its status is 0 where nothing failed. It proves nothing: the gate is .ci/run.
# Usage: tools/try.sh [CRATE..]
set -eu
top="$(cd "$(dirname "$0")/.." && pwd)"
room="$(mktemp -d)"
trap 'rm -rf "$room"' EXIT
export top room

# A line for each try, CRATE run or CRATE tests; crates that stand high first, since theirs take longest.
list_tries() {
    local crate
    sed -e 's/#.*//' -e '/:/!d' -e 's/[ :].*//' "$top/crates.txt" | tac | while read -r crate; do
        if [ $# -gt 0 ] && [[ " $* " != *" $crate "* ]]; then continue; fi
        if [ -f "$top/crates/$crate/src/main.rt" ]; then echo "$crate run"; fi
        if grep -rqs '#\[test\]' "$top/crates/$crate/src"; then echo "$crate tests"; fi
    done
}

# The words of a program come from its file args, its input from stdin, its files from data/; it is to write what stands in stdout.
try_run() {
    local words=() files=() file input=/dev/null wanted=/dev/null status=0 wanted_status=0
    if [ -f args ]; then mapfile -t words < args; fi
    if [ -f stdin ]; then input=stdin; fi
    if [ -f stdout ]; then wanted=stdout; fi
    if [ -f status ]; then wanted_status=$(cat status); fi
    if [ -d data ]; then
        while read -r file; do files+=(--data "$file=data/$file"); done < <(cd data && find . -type f | sed 's,^\./,,' | sort)
    fi
    rt try --seconds 600 "${files[@]}" -- "${words[@]}" < "$input" > "$1.text" 2> "$1.log" || status=$?
    if [ "$status" != "$wanted_status" ]; then
        echo "it ended with $status" >> "$1.log"
        return 1
    fi
    diff "$wanted" "$1.text" >> "$1.log"
}

# Prints a line when it ends: how, the crate, what of it was tried, and the seconds.
try_one() {
    local crate=$1 what=$2 began=$SECONDS how=ok
    cd "$top/crates/$crate"
    if [ "$what" = tests ]; then
        rt try --test --seconds 600 > "$room/$crate.tests.log" 2>&1 < /dev/null || how=FAILED
    else
        try_run "$room/$crate.run" || how=FAILED
    fi
    echo "$how $crate $what $((SECONDS - began))"
}
export -f try_one try_run

if ! command -v rt > /dev/null; then
    echo "try.sh: the command rt of the Rattle kit is not on the PATH" >&2
    exit 1
fi
for crate in "$@"; do
    if [ ! -d "$top/crates/$crate" ]; then
        echo "try.sh: there is no crate $crate" >&2
        exit 1
    fi
done
list_tries "$@" > "$room/tries"
left=$(wc -l < "$room/tries")
# A try was seen to take 1.1 gigabytes.
lanes=$(awk -v processors="$(nproc)" '/^MemAvailable:/ { n = int($2 / 1500000); print n < 1 ? 1 : n < processors ? n : processors }' /proc/meminfo)
passed=0
failed=()
echo "try.sh: $left to try, $lanes side by side; nothing is proved"
while read -r how crate what took; do
    left=$((left - 1))
    echo "$crate $what: $how, $took s, $left left"
    if [ "$how" = ok ]; then
        passed=$((passed + 1))
    else
        failed+=("$crate.$what")
        cat "$room/$crate.$what.log"
    fi
done < <(xargs -r -P "$lanes" -L 1 bash -c 'set -eu; try_one "$@"' try_one < "$room/tries")
echo "try.sh: $passed passed, $((${#failed[@]} + left)) failed ${failed[*]}"
[ "$left" = 0 ] && [ "${#failed[@]}" = 0 ]
