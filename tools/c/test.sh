#!/usr/bin/env bash
# Runs the tests of the library for C: plain, with KCAS_CHECKED, and by the address, undefined-behaviour, thread and memory sanitizers; then
# those of the wrappers, the examples, and an installation in a fresh prefix. It stands outside of the gate. Build first: tools/c/build.sh.
# Usage: tools/c/test.sh [ROUNDS]
set -eu
top="$(cd "$(dirname "$0")/../.." && pwd)"
to="${KCAS_OUT:-$top/out/c}"
room="$(mktemp -d)"
trap 'rm -rf "$room"' EXIT
failed=0
has() { command -v "$1" > /dev/null || { echo "no $1: $2 is left out"; return 1; }; }

# ran NAME COMMAND..: says whether it passed, and its last lines where it didn't
ran() {
    local name="$1"
    shift
    if timeout 600 "$@" > "$room/said" 2>&1; then
        echo "$name passed $(tr '\n' ' ' < "$room/said")"
    else
        echo "$name FAILED"
        tail -5 "$room/said"
        failed=1
    fi
}

# try NAME COMPILER FLAGS..: each test, built with these flags
try() {
    local name="$1" compiler="$2" test wrap
    shift 2
    echo 'int main(void) { return 0; }' > "$room/none.c"
    if ! { "$compiler" "$@" "$room/none.c" -o "$room/none" && "$room/none"; } > /dev/null 2>&1; then
        echo "no $name here: left out"
        return
    fi
    for test in $tests; do
        wrap=()
        [ "$test" = refused ] && wrap=(-Wl,--wrap=malloc,--wrap=realloc,--wrap=free)
        [ "$test" = views ] && wrap=(-Wl,--wrap=kcas_view)
        "$compiler" -std=c11 -g -O1 -Wall -Wextra -Werror "$@" -I "$top/c" "$top/tools/c/tests/$test.c" "$to/libkcas.a" "${wrap[@]}" -pthread -o "$room/$test"
        ran "$name: $test" "$room/$test" ${rounds:+$rounds}
    done
}

rounds="${1:-}"
tests="calls refused adds sums waits soak named deadlines handed fed views ends stopped"
try plain gcc
try checked gcc -DKCAS_CHECKED
rounds="${1:-5000}"
try "address and undefined-behaviour sanitizer" gcc -fsanitize=address,undefined -fno-sanitize-recover=all
try "thread sanitizer" gcc -fsanitize=thread
# The header tells this one what its own tries have written; the other tests call the library themselves.
tests="sums waits soak deadlines handed ends stopped"
try "memory sanitizer" clang -fsanitize=memory
if has g++ "C++"; then
    g++ -std=c++17 -g -O1 -Wall -Wextra -Werror -I "$top/c" "$top/tools/c/tests/classes.cc" "$to/libkcas.a" -pthread -o "$room/classes"
    ran "C++: classes" "$room/classes"
fi
for example in accounts pool server jobs-cc pool-cc; do
    [ -x "$to/$example" ] && ran "example: $example" "$to/$example"
done
for example in accounts pool; do
    [ -x "$to/cargo/release/examples/$example" ] && ran "example in Rust: $example" "$to/cargo/release/examples/$example"
done
export KCAS_LIB="$to/libkcas.so"
if has python3 "Python"; then
    ran "Python: values" python3 "$top/tools/c/tests/values.py"
    for example in jobs pool; do
        ran "example in Python: $example" python3 "$top/c/examples/$example.py"
    done
fi
unset KCAS_LIB
"$top/tools/c/tests/installed.sh" || failed=1
exit "$failed"
