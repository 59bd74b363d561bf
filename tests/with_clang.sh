#!/bin/sh
# Builds a library with another clang: `with_clang.sh CLANG OUT [CRATE]` hands `rattle build` a toolchain folder whose
# clang is the script CLANG, and writes the static library OUT of the crate, else of gsym_c; CLANG and OUT are whole
# paths. The crates must have been built before, by `make libgsym.a` and, for reader_c, `make target/libreader_c.a`. For
# what is done with the compiled module: tests/fuzz/build.sh, tests/oracle/harmed.sh.
set -eu
cd "$(dirname "$0")/.."
script=${1:?the script that stands for clang}
out=${2:?the library to write}
crate=${3:-gsym_c}
kit=$(command -v rt)
kit=${RATTLE_HOME:-$(dirname "$(dirname "$(readlink -f "$kit")")")}
folder=$(mktemp -d)
trap 'rm -rf "$folder"' EXIT
mkdir "$folder/bin"
ln -s "$kit/toolchain/lib" "$folder/lib"
ln -s "$kit/toolchain/bin/ld.lld" "$kit/toolchain/bin/llvm-ar" "$folder/bin/"
cp "$script" "$folder/bin/clang"
chmod +x "$folder/bin/clang"
cd "crates/$crate"
set -- --extern "std=$kit/rlibs/std.rlib" -L "dependency=$kit/rlibs"
for rlib in ../*/out/rlib; do
    set -- "$@" -L "dependency=$rlib"
done
for other in $(sed -n "s/#.*//; s/^$crate staticlib: *//p" ../../crates.txt); do
    rlib=../$other/out/rlib/$other.rlib
    [ -e "$rlib" ] || rlib=$kit/rlibs/$other.rlib
    set -- "$@" --extern "$other=$rlib"
done
"$kit/bin/rattle" build --crate-name "$crate" src/lib.rt "$@" --antt-project "$kit/rattle/logic/antt-project.json" \
    --logic-built "$kit/logic_built" --toolchain "$folder" --backend llvm --crate-type staticlib -o "$out"
