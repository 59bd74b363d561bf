#!/bin/sh
# Real files: every line block and every inline block of the corpus, the unchanged Rust against the static library in
# one process. Line rows at both ends and the middle of each symbol; frames at every edge of every range and one below.
# And what the check finds in each file, and in 20,000 copies of each small one with other bytes: what passes is walked
# by the Rust to its end.
# Needs the corpus ($GSYM_CORPUS) and what build.sh needs; says so and answers 3 where they are not there.
set -eu
cd "$(dirname "$0")/../.."
corpus=${GSYM_CORPUS:-../shared/corpus}
[ -f "$corpus/tiny1.gsym" ] || { echo "corpus: no files at $corpus (set GSYM_CORPUS)"; exit 3; }
command -v rustc >/dev/null 2>&1 || { echo "corpus: no rustc here"; exit 3; }
tmp=$(mktemp -d)
trap 'rm -rf "$tmp"' EXIT
status=0
sh tests/oracle/build.sh "$tmp" || status=$?
[ "$status" = 0 ] || exit "$status"
ORACLE_FLAGS="--cfg walk" sh tests/oracle/build.sh "$tmp/walk"
make libgsym.a target/libreader_c.a >"$tmp/rt.log" 2>&1 || { tail -n 20 "$tmp/rt.log"; exit 1; }
for kind in line inline; do
    rustc --edition 2021 -O -L "$tmp" --extern "oracle=$tmp/liboracle.rlib" -L target -l static=reader_c \
        -o "$tmp/$kind" "bench/$kind.rs"
done
rustc --edition 2021 -O --crate-type rlib --crate-name gsym -o "$tmp/libgsym.rlib" bindings/rust/src/lib.rs
rustc --edition 2021 -O -L "$tmp/walk" --extern "oracle=$tmp/walk/liboracle.rlib" -L . \
    --extern "gsym=$tmp/libgsym.rlib" -l static=gsym -o "$tmp/check" bench/check.rs
for packed in "$corpus"/*.gsym.xz; do
    xz -dc "$packed" >"$tmp/$(basename "$packed" .xz)"
done
for file in "$corpus"/*.gsym "$tmp"/*.gsym; do
    for kind in line inline; do
        said=$("$tmp/$kind" "$file" check) || { echo "corpus: $(basename "$file" .gsym), $kind: the answers differ"; exit 1; }
        echo "corpus: $(basename "$file" .gsym), $kind: $said"
    done
    said=$("$tmp/check" "$file" check) || { echo "corpus: $(basename "$file" .gsym), check: the Rust stops"; exit 1; }
    echo "corpus: $(basename "$file" .gsym), check: $said"
done
for file in "$corpus"/*.gsym; do
    said=$("$tmp/check" "$file" harmed 20000) ||
        { echo "corpus: a copy of $(basename "$file" .gsym) passes, and the Rust stops"; exit 1; }
    echo "corpus: $(basename "$file" .gsym), check: $said"
done
