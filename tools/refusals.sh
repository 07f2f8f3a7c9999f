#!/usr/bin/env bash
# Refuses the calls of the program one after another, on each store, for each of its commands, a check and a run on texts among them:
# every allocation, read and write of a run in turn, and makes every read and write in turn move one byte alone. The script has a block,
# a stack, and a command that waits, and its text is the same at each run. Of a run that makes many allocations, each of the first
# 200 is refused, and then fewer. A library that stands before the C library refuses them, in the program as it is built. Where the
# memory to start a thread is refused, the kit runs the threads one after another, and those that wait for each other don't end: that
# is counted, and isn't wrong.
# Prints a line for each sweep, and one on standard error for each wrong ending; fails where there was one.
# Usage: tools/refusals.sh
set -eu
top="$(cd "$(dirname "$0")/.." && pwd)"
room="$(mktemp -d)"
trap 'rm -rf "$room"' EXIT
parts="$top/tools/refusals"
program="$top/crates/kcas/out/kcas"
wrong=0

knows_store() {
    local status=0
    "$program" run --store "$1" < /dev/null > /dev/null 2>&1 || status=$?
    [ "$status" != 2 ]
}

# Runs the program on words, with the Nth call of a kind refused.
run() {
    local kind=$1 n=$2
    shift 2
    rm -f "$room/refused" "$room/started"
    status=0
    timeout 10 env LD_PRELOAD="$room/refuse.so" REFUSE="$kind:$n" REFUSED="$room/refused" STARTED="$room/started" \
        "$program" "$@" < "$room/script" > "$room/out" 2> "$room/line" || status=$?
}

is_right() {
    [ "$status" = 0 ] && cmp -s "$room/out" "$room/text" && [ ! -s "$room/line" ]
}

# Whether it ended with this status and its line, and wrote nothing.
is_refused() {
    [ "$status" = "$1" ] && [ ! -s "$room/out" ] && [ "$(cat "$room/line")" = "kcas: $2" ]
}

# Whether writing failed behind a front of the text.
is_cut() {
    [ "$status" = 5 ] && cmp -s -n "$(stat -c %s "$room/out")" "$room/out" "$room/text" &&
        [ "$(cat "$room/line")" = "kcas: writing failed" ]
}

# Whether it didn't end, and started no thread.
is_alone() {
    [ "$status" = 124 ] && [ ! -e "$room/started" ]
}

# Whether the last run ended as it may, where a call of this kind was refused.
may_end_so() {
    case $1 in
    alloc) is_refused 6 "out of memory" || is_right ;;
    read) is_refused 4 "reading failed" ;;
    write) is_cut ;;
    short) is_right ;;
    esac
}

# Refuses calls of a kind until there are no more of them.
sweep() {
    local kind=$1 n=1 refused=0 alone=0
    shift
    while run "$kind" "$n" "$@" && [ -e "$room/refused" ]; do
        refused=$((refused + 1))
        if [ "$kind" = alloc ] && is_alone; then
            alone=$((alone + 1))
        elif ! may_end_so "$kind"; then
            echo "$*: $kind $n ended with $status: $(head -c 200 "$room/line")" >&2
            wrong=$((wrong + 1))
        fi
        n=$((n + 1 + n / 200))
    done
    if ! is_right; then
        echo "$*: ended with $status though nothing was refused" >&2
        wrong=$((wrong + 1))
    fi
    echo "$*: $kind, $refused refused$([ "$alone" = 0 ] || echo ", $alone of them the start of a thread")"
}

# All sweeps of a command.
sweep_all() {
    if ! "$program" "$@" < "$room/script" > "$room/text"; then
        echo "$*: not run" >&2
        wrong=$((wrong + 1))
        return
    fi
    for kind in alloc read write short; do
        sweep "$kind" "$@"
    done
}

"$top/kcas" run < /dev/null > "$room/built" 2>&1 || [ $? != 1 ] || { cat "$room/built" >&2; exit 1; }
gcc -O2 -shared -fPIC "$parts/refuse.c" -o "$room/refuse.so"
{
    cat "$parts/setup.kcas"
    for part in first second; do
        echo thread
        cat "$parts/$part.kcas"
    done
} > "$room/script"
cd "$parts"
for store in lock kcas; do
    if ! knows_store "$store"; then
        echo "the program knows no store $store" >&2
        continue
    fi
    sweep_all run --store "$store"
    sweep_all files --store "$store" setup.kcas first.kcas second.kcas
    sweep_all storm --store "$store" 7
done
# A check reads no standard input, and shares no store.
"$program" run < "$room/script" > "$room/printed"
sweep_all check "$room/script" "$room/printed"
# Neither does a run on texts, and it shares the lock-free store. Its picks are written by more than one call.
for n in $(seq 1 40); do
    echo "a text of some length, of which there are forty here, this is $n"
done > "$room/texts"
for n in $(seq 40 -1 1) $(seq 1 2 39) $(seq 1 40); do
    echo "$n"
done > "$room/picks"
sweep_all texts "$room/texts" "$room/picks"
[ "$wrong" = 0 ]
