#!/bin/sh
# Builds the bench's programs: `build.sh OUT [TREE]` puts line_whole, line_one, inline_whole, inline_one,
# numbers_whole, numbers_one, lookup, report, write, check and stack into OUT, and there the corpus' kernel file as
# vmlinux612.gsym. The libraries are those of this tree, which are proved and built first, or of another checkout TREE,
# where they must have been built; of an older one without reports or a writer there is no program `report` or `write`.
# Needs rustc, the sources of blazesym 0.2.6 (BLAZESYM_SRC, see tests/oracle/README.md), the corpus with
# vmlinux612.gsym.xz (GSYM_CORPUS), and xz; answers 3 and says so where they are not there.
set -eu
cd "$(dirname "$0")/.."
out=${1:?the folder to build in}
tree=${2:-.}
corpus=${GSYM_CORPUS:-../shared/corpus}
[ -f "$corpus/vmlinux612.gsym.xz" ] || { echo "bench: no vmlinux612.gsym.xz at $corpus (set GSYM_CORPUS)"; exit 3; }
command -v rustc >/dev/null 2>&1 || { echo "bench: no rustc here"; exit 3; }
mkdir -p "$out"
if [ "$tree" = . ]; then
    make libgsym.a target/libreader_c.a target/libreport_c.a target/libgsym_write.a >"$out/rt.log" 2>&1 ||
        { tail -n 20 "$out/rt.log"; exit 1; }
fi
cp "$tree/libgsym.a" "$tree/target/libreader_c.a" "$out/"
xz -dc "$corpus/vmlinux612.gsym.xz" >"$out/vmlinux612.gsym"

# the Rust as a whole module, and with run_op compiled into the one loop that calls it
for build in whole one; do
    flags=
    [ $build = whole ] || flags="-C codegen-units=1 --cfg one_caller"
    ORACLE_FLAGS=$flags sh tests/oracle/build.sh "$out/$build"
    for kind in line inline numbers; do
        rustc --edition 2021 -C opt-level=3 -L "$out/$build" --extern "oracle=$out/$build/liboracle.rlib" \
            -L "$out" -l static=reader_c -o "$out/${kind}_$build" "bench/$kind.rs"
    done
done

# whole lookups, through the binding that Rust hosts use; the Rust as a whole module
rustc --edition 2021 -C opt-level=3 --crate-type rlib --crate-name gsym -o "$out/libgsym.rlib" bindings/rust/src/lib.rs
rustc --edition 2021 -C opt-level=3 -L "$out/whole" --extern "oracle=$out/whole/liboracle.rlib" -L "$out" \
    --extern "gsym=$out/libgsym.rlib" -l static=gsym -o "$out/lookup" bench/lookup.rs

# reports, which an older TREE hasn't
rm -f "$out/report"
if [ -f "$tree/target/libreport_c.a" ]; then
    cp "$tree/target/libreport_c.a" "$out/"
    rustc --edition 2021 -C opt-level=3 -L "$out/whole" --extern "oracle=$out/whole/liboracle.rlib" -L "$out" \
        -l static=report_c -o "$out/report" bench/report.rs
fi

# and a writer
rm -f "$out/write"
if [ -f "$tree/target/libgsym_write.a" ]; then
    cp "$tree/target/libgsym_write.a" "$out/"
    rustc --edition 2021 -C opt-level=3 -L "$out/whole" --extern "oracle=$out/whole/liboracle.rlib" -L "$out" \
        -l static=gsym_write -o "$out/write" bench/write.rs
fi

ORACLE_FLAGS="--cfg walk" sh tests/oracle/build.sh "$out/walk"
rustc --edition 2021 -C opt-level=3 -L "$out/walk" --extern "oracle=$out/walk/liboracle.rlib" -L "$out" \
    --extern "gsym=$out/libgsym.rlib" -l static=gsym -o "$out/check" bench/check.rs
rustc --edition 2021 -O -L "$out" -l static=reader_c -o "$out/stack" bench/stack.rs
