#!/usr/bin/env bash
# Builds a program of this repository without proving it, as fast code, 40 seconds after an edit: to compare two texts by. Its times aren't
# those of the proved program, which may be put in line otherwise; what is published is measured on proved programs, or says so.
# `rt try` hands clang the module; a clang of our own keeps it. What `rt try` adds to test is taken out, and functions are in line where
# their sources say so.
# Usage: tools/bench/unproved/build.sh CRATE OUT      (kc_bench and kc_bench_views: as mixes.sh and views.sh set them up)
set -eu
here="$(cd "$(dirname "$0")" && pwd)"
top="$(cd "$here/../../.." && pwd)"
crate=$1 out=$2
kit="$(dirname "$(dirname "$(readlink -f "$(command -v rt)")")")"
room="$(mktemp -d)"
trap 'rm -rf "$room"' EXIT

# A toolchain whose clang keeps what it is given.
mkdir -p "$room/toolchain/bin"
for tool in ld.lld llvm-ar rattle-x64; do
    ln -s "$kit/toolchain/bin/$tool" "$room/toolchain/bin/$tool"
done
ln -s "$kit/toolchain/lib" "$room/toolchain/lib"
cat > "$room/toolchain/bin/clang" <<END
#!/bin/bash
for word in "\$@"; do
    case "\$word" in *.bc) cp "\$word" "$room/module.bc" ;; esac
done
exec -a clang "$kit/toolchain/bin/clang" "\$@"
END
chmod +x "$room/toolchain/bin/clang"
cp "$kit/bin/rt" "$kit/bin/rtlib.py" "$room"
sed -i "s#^KIT = .*#KIT = \"$kit\"#; s#\"--toolchain\", f\"{KIT}/toolchain\"#\"--toolchain\", \"$room/toolchain\"#" "$room/rtlib.py"

(cd "$top/crates/$crate" && RT_ALLOW_C=$crate python3 "$room/rt" try --steps 10 --seconds 1 > "$room/tried" 2>&1) || true
[ -f "$room/module.bc" ] || { cat "$room/tried" >&2; exit 1; }

target=x86_64-unknown-linux-gnu
clang=("$kit/toolchain/bin/clang" "--target=$target" --no-default-config)
"${clang[@]}" -S -emit-llvm -x ir "$room/module.bc" -O0 -Xclang -disable-llvm-passes -o "$room/module.ll"
python3 "$here/strip.py" "$kit" "$top" < "$room/module.ll" > "$room/stripped.ll"
# As rt calls clang on what is proved.
"${clang[@]}" "--sysroot=$kit/toolchain" -march=x86-64 -O3 -fPIE -ffunction-sections -fdata-sections -Xclang -fmerge-functions \
    -mllvm -mergefunc-use-aliases -mllvm -no-trap-after-noreturn -mllvm -trap-unreachable -mllvm -no-x86-call-frame-opt \
    -mllvm -disable-machine-licm -mllvm -disable-postra-machine-licm -mllvm -sink-common-insts=false -Wno-override-module \
    -c -x ir "$room/stripped.ll" -o "$room/module.o"
objects=("$room/module.o")
for file in "$top/crates/$crate"/c/*.c; do
    [ -f "$file" ] || continue
    "${CC:-cc}" -O2 -c "$file" -o "$room/$(basename "$file").o"
    objects+=("$room/$(basename "$file").o")
done
"$kit/bin/rattle-link" --target "$target" --toolchain "$kit/toolchain" -o "$out" "${objects[@]}" "$kit/c/libos_c.a" "$kit/c/liblibc_c.a"
