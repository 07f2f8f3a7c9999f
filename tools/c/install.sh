#!/usr/bin/env bash
# Installs the library for C: headers, both libraries, and the files by which pkg-config and CMake find them. Build first: tools/c/build.sh.
# Usage: [DESTDIR=..] [LIBDIR=..] [INCLUDEDIR=..] tools/c/install.sh PREFIX
set -eu
[ $# = 1 ] || { sed -n '2,3s/^# //p' "$0" >&2; exit 2; }
top="$(cd "$(dirname "$0")/../.." && pwd)"
from="${KCAS_OUT:-$top/out/c}"
[ -f "$from/libkcas.a" ] || { echo "no $from/libkcas.a: tools/c/build.sh makes it" >&2; exit 1; }
prefix="$(realpath -ms "$1")"
libdir="${LIBDIR:-$prefix/lib}"
includedir="${INCLUDEDIR:-$prefix/include}"
to="${DESTDIR:-}"
version="$(sed -n 's/^#define KCAS_VERSION "\(.*\)"/\1/p' "$top/c/kcas.h")"
abi="${version%.*}"

# fill NAME FOLDER: the file of that name, with this place and version
fill() {
    mkdir -p "$2"
    sed "s|@PREFIX@|$prefix|; s|@LIBDIR@|$libdir|; s|@INCLUDEDIR@|$includedir|; s|@VERSION@|$version|; s|@ABI@|$abi|
        s|@INCLUDE_FROM_LIB@|$(realpath -ms --relative-to="$libdir" "$includedir")|" "$top/c/install/$1.in" > "$2/$1"
    chmod 644 "$2/$1"
}

install -d "$to$includedir" "$to$libdir" "$to$prefix/share/doc/kcas"
install -m 644 "$top/c/kcas.h" "$top/c/kcas.hpp" "$to$includedir"
install -m 644 "$from/libkcas.a" "$to$libdir"
if [ -f "$from/libkcas.so.$version" ]; then
    install -m 755 "$from/libkcas.so.$version" "$to$libdir"
    ln -sf "libkcas.so.$version" "$to$libdir/libkcas.so.$abi"
    ln -sf "libkcas.so.$abi" "$to$libdir/libkcas.so"
fi
fill kcas.pc "$to$libdir/pkgconfig"
fill kcas-config.cmake "$to$libdir/cmake/kcas"
fill kcas-config-version.cmake "$to$libdir/cmake/kcas"
install -m 644 "$top/LICENSE-APACHE" "$top/LICENSE-MIT" "$to$prefix/share/doc/kcas"
echo "kcas $version is installed in $to$prefix"
