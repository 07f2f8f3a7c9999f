#!/usr/bin/env bash
# Installs the library into a fresh prefix, sees what it exports, and builds and runs the pool there as a new user would: by pkg-config, by
# CMake, statically, from Rust by a copy of the crate, and from Python by a wheel. What isn't installed is left out, with a line.
set -eu
top="$(cd "$(dirname "$0")/../../.." && pwd)"
room="$(mktemp -d)"
trap 'rm -rf "$room"' EXIT
has() { command -v "$1" > /dev/null || { echo "no $1: $2 is left out"; return 1; }; }
fail() { echo "installed: $1 FAILED"; exit 1; }
version="$(sed -n 's/^#define KCAS_VERSION "\(.*\)"/\1/p' "$top/c/kcas.h")"
abi="${version%.*}"

# A package is made in a folder of its own, for a prefix of the system's.
DESTDIR="$room/stage" LIBDIR=/usr/lib/here "$top/tools/c/install.sh" /usr > /dev/null
grep -q '^libdir=/usr/lib/here$' "$room/stage/usr/lib/here/pkgconfig/kcas.pc" || fail "DESTDIR"
[ -z "$(grep -r "$room" "$room/stage/usr/lib/here/pkgconfig" "$room/stage/usr/lib/here/cmake")" ] || fail "DESTDIR"

prefix="$room/prefix"
if has make "make install"; then
    make -s -C "$top/c" install PREFIX="$prefix" > /dev/null
else
    "$top/tools/c/install.sh" "$prefix" > /dev/null
fi
lib="$prefix/lib"
for library in "-D $lib/libkcas.so" "-g $lib/libkcas.a"; do
    # shellcheck disable=SC2086
    others="$(IFS=' '; nm ${library%% *} --defined-only "${library#* }" | awk 'NF == 3 && $3 !~ /^kcas_/')"
    [ -z "$others" ] || { echo "$others"; fail "the names of ${library##*/}"; }
done
readelf -d "$lib/libkcas.so" | grep -q "SONAME.*\[libkcas.so.$abi\]" || fail "soname"
readelf -lW "$lib/libkcas.so" | grep -q 'GNU_STACK.* RW ' || fail "a stack that isn't code"
echo "installed: kcas_ names alone are exported, $(nm -D --defined-only "$lib/libkcas.so" | wc -l) of them"

cp "$top/c/examples/pool.c" "$top/c/examples/pool.cc" "$room"
cd "$room"
export PKG_CONFIG_PATH="$lib/pkgconfig"
pool() { LD_LIBRARY_PATH="$lib" timeout 120 "$@" > "$room/said" 2>&1 || { cat "$room/said"; fail "$1"; }; }
if has pkg-config "pkg-config"; then
    [ "$(pkg-config --modversion kcas)" = "$version" ] || fail "modversion"
    eval "cc -std=c11 -O2 -Wall -Wextra -Werror pool.c $(pkg-config --cflags --libs kcas) -pthread -o by_pkg_config"
    pool ./by_pkg_config
    readelf -d by_pkg_config | grep -q "NEEDED.*\[libkcas.so.$abi\]" || fail "by soname"
    echo "installed: by pkg-config: $(cat said)"
fi
cc -std=c11 -O2 -Wall -Wextra -Werror -I "$prefix/include" pool.c "$lib/libkcas.a" -pthread -o static
pool ./static
echo "installed: statically: $(cat said)"
if has cmake "CMake" && has g++ "CMake"; then
    cat > CMakeLists.txt << EOF
cmake_minimum_required(VERSION 3.10)
project(pool C CXX)
set(CMAKE_C_STANDARD 11)
set(CMAKE_CXX_STANDARD 17)
find_package(Threads REQUIRED)
find_package(kcas $abi REQUIRED)
find_package(kcas $version EXACT REQUIRED)
add_executable(c_pool pool.c)
target_link_libraries(c_pool kcas::kcas Threads::Threads)
add_executable(cc_pool pool.cc)
target_link_libraries(cc_pool kcas::static Threads::Threads)
find_package(kcas 99 QUIET)
if(kcas_FOUND)
    message(FATAL_ERROR "version 99 was found")
endif()
EOF
    # A prefix may be moved.
    mv "$prefix" "$room/moved"
    { cmake -S . -B build -DCMAKE_BUILD_TYPE=Release -DCMAKE_PREFIX_PATH="$room/moved" && cmake --build build; } > built 2>&1 || { tail -20 built; fail "cmake"; }
    mv "$room/moved" "$prefix"
    pool build/c_pool
    pool build/cc_pool
    echo "installed: by CMake, C and C++: $(cat said)"
fi
if has cargo "Rust" && has pkg-config "Rust"; then
    mkdir crate
    cp -r "$top/c/rust/src" "$top/c/rust/tests" "$top/c/rust/build.rs" "$top/c/rust/Cargo.toml" crate
    mkdir crate/examples
    cp "$top"/c/rust/examples/*.rs crate/examples
    (cd crate && CARGO_TARGET_DIR="$room/target" cargo test --offline -q > "$room/built" 2>&1) || { tail -30 built; fail "cargo test"; }
    (cd crate && CARGO_TARGET_DIR="$room/target" cargo run --offline -q --example pool > "$room/said" 2>&1) || { tail said; fail "cargo run"; }
    echo "installed: from Rust: $(cat said)"
fi
if has python3 "Python" && python3 -m pip --version > /dev/null 2>&1; then
    KCAS_LIB="$lib/libkcas.so" python3 -m pip wheel -q --no-index --no-deps --disable-pip-version-check -w wheel "$top/c/python" > built 2>&1 || { tail built; fail "pip wheel"; }
    python3 -m pip install -q --no-index --no-deps --disable-pip-version-check --target site wheel/kcas-*.whl > built 2>&1 || { tail built; fail "pip install"; }
    sed '/sys.path.insert/d' "$top/c/examples/pool.py" > pool.py
    (unset KCAS_LIB; PYTHONPATH="$room/site" timeout 120 python3 pool.py > said 2>&1) || { tail said; fail "the wheel"; }
    echo "installed: from Python, $(basename wheel/*.whl): $(cat said)"
fi
