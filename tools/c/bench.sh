#!/usr/bin/env bash
# Times the mixes of tools/bench/mixes.sh by the library for C, beside a C++ mutex and GCC's transactional memory, and commits from Python by
# ctypes. What isn't installed is left out, with a line. tools/bench/mixes.sh has Rattle's own calls, and this column too where the library is
# made. Build first: tools/c/build.sh.
# Usage: tools/c/bench.sh [RUNS]
set -eu
top="$(cd "$(dirname "$0")/../.." && pwd)"
to="${KCAS_OUT:-$top/out/c}"
room="$(mktemp -d)"
trap 'rm -rf "$room"' EXIT
peers=()
build() {
    local name=$1
    shift
    if g++ -std=c++17 -O2 -march=x86-64-v2 -pthread "$@" -o "$room/$name" > "$room/built" 2>&1; then
        peers+=("$room/$name")
    else
        echo "$name: left out, since g++ doesn't build it here" >&2
    fi
}
build c -I "$top/c" "$top/tools/c/bench/kcas.cpp" "$to/libkcas.a"
build mutex "$top/tools/bench/mixes/mutex.cpp"
build gcc -fgnu-tm "$top/tools/bench/mixes/transactional.cpp"
for _ in $(seq "${1:-1}"); do
    for peer in "${peers[@]}"; do "$peer"; done
done > "$room/times"
python3 "$top/tools/bench/mixes/table.py" < "$room/times"
KCAS_LIB="$to/libkcas.so" python3 "$top/tools/c/bench/python.py"
