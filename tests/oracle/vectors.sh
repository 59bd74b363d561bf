#!/bin/sh
# Writes the stored answers of the unchanged Rust anew: tests/vectors/line.txt, inline.txt and parser.txt, and, where
# the real files are there ($GSYM_CORPUS), the whole lookups at crates/lookup_cases/stdin. With --check it only compares.
set -eu
cd "$(dirname "$0")/../.."
tmp=$(mktemp -d)
trap 'rm -rf "$tmp"' EXIT
status=0
sh tests/oracle/build.sh "$tmp" || status=$?
[ "$status" = 0 ] || exit "$status"
mode=${1:-}

# make KIND STORED WORDS..: runs the program of a kind with these words, and stores or compares what it writes
make() {
    kind=$1 stored=$2
    shift 2
    rustc --edition 2021 -O -L "$tmp" --extern "oracle=$tmp/liboracle.rlib" -o "$tmp/$kind" \
        "tests/oracle/${kind}_vectors.rs"
    "$tmp/$kind" "$@" >"$tmp/$kind.txt"
    if [ "$mode" = --check ]; then
        cmp "$tmp/$kind.txt" "$stored" || { echo "oracle: $stored is not what the Rust answers"; exit 1; }
        echo "oracle: $stored is what the unchanged Rust answers ($(grep -c '^[^#@R]' "$tmp/$kind.txt") cases)"
    else
        cp "$tmp/$kind.txt" "$stored"
    fi
}

for kind in line inline parser; do
    make "$kind" "tests/vectors/$kind.txt"
done
corpus=${GSYM_CORPUS:-../shared/corpus}
[ -f "$corpus/tiny1.gsym" ] || { echo "oracle: no files at $corpus (set GSYM_CORPUS), so no whole lookups"; exit 3; }
for packed in "$corpus"/*.llvm.tsv.xz; do
    name=$(basename "$packed" .llvm.tsv.xz)
    cp "$corpus/$name.gsym" "$tmp/"
    xz -dc "$packed" >"$tmp/$name.llvm.tsv"
done
make lookup crates/lookup_cases/stdin "$tmp"
