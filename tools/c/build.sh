#!/usr/bin/env bash
# Makes libkcas.a, libkcas.so and the examples in C, C++ and Rust, in out/c at the top, by the C compiler cc and binutils. The library is
# proved first where it isn't yet, with all that it stands on. Where C++ or Rust isn't installed, its examples are left out, with a line.
# Usage: tools/c/build.sh
set -eu
top="$(cd "$(dirname "$0")/../.." && pwd)"
kit="$(dirname "$(rt doc | head -1)")"
to="$top/out/c"
mkdir -p "$to"
if [ ! -f "$top/crates/kc_c/out/libkc_c.a" ]; then
    python3 "$top/tools/build.py" kc_c
fi
(cd "$top/crates/kc_c" && rt lib > "$to/proof.log" 2>&1) || { tail "$to/proof.log" >&2; exit 1; }
room="$(mktemp -d)"
trap 'rm -rf "$room"' EXIT
# The kit's allocator over malloc comes from the kit, at each build. All is one object, in which names other than kcas_.. are its own.
(
    cd "$room"
    ar x "$top/crates/kc_c/out/libkc_c.a"
    ar x "$kit/c/liblibc_c.a" heap.pic.o
    "${CC:-cc}" -std=c11 -O2 -fPIC -Wall -Wextra -I "$top/c" -c "$top/c/kcas.c" -o kcas_c.o
    ld -r ./*.o -o all.o
    objcopy --wildcard --keep-global-symbol='kcas_*' all.o kcas.o
)
rm -f "$to"/libkcas.*
ar rcs "$to/libkcas.a" "$room/kcas.o"
version="$(sed -n 's/^#define KCAS_VERSION "\(.*\)"/\1/p' "$top/c/kcas.h")"
shared="libkcas.so.${version%.*}"
"${CC:-cc}" -shared -o "$to/libkcas.so.$version" -Wl,-soname,"$shared" -Wl,--version-script="$top/c/install/kcas.map" -Wl,--whole-archive "$to/libkcas.a" -Wl,--no-whole-archive
ln -sf "libkcas.so.$version" "$to/$shared"
ln -sf "$shared" "$to/libkcas.so"
has() { command -v "$1" > /dev/null || { echo "no $1: $2 is left out"; return 1; }; }
for example in accounts pool server; do
    "${CC:-cc}" -std=c11 -O2 -Wall -Wextra -I "$top/c" "$top/c/examples/$example.c" "$to/libkcas.a" -pthread -o "$to/$example"
done
has g++ "C++" && for example in jobs pool; do
    g++ -std=c++17 -O2 -Wall -Wextra -I "$top/c" "$top/c/examples/$example.cc" "$to/libkcas.a" -pthread -o "$to/$example-cc"
done
has cargo "Rust" && (cd "$top/c/rust" && KCAS_LIB_DIR="$to" CARGO_TARGET_DIR="$to/cargo" cargo build --offline -q --release --examples)
echo "made in out/c: $(cd "$to" && ls -d libkcas.a libkcas.so accounts pool server jobs-cc pool-cc 2> /dev/null | tr '\n' ' ')"
