#!/bin/sh
# Holds the stored vectors to what makes them, the whole lookups, line tables and inline blocks to RULES written down
# once more, and all to Rust's standard library and the unchanged Rust, where this machine has Python, a Rust compiler,
# the sources and the real files; says so in plain words where it has not.
set -u
cd "$(dirname "$0")/../.." || exit 2
vectors=crates/reader_cases/stdin
tmp=$(mktemp -d) || exit 2
trap 'rm -rf "$tmp"' EXIT
if command -v python3 >/dev/null 2>&1; then
    sh tests/vectors/all.sh >"$tmp/made" || exit 1
    cmp "$tmp/made" "$vectors" || { echo "vectors: $vectors is not what tests/vectors/all.sh writes"; exit 1; }
    echo "vectors: $vectors is what tests/vectors/all.sh writes"
    python3 tests/vectors/lookup_model.py <crates/lookup_cases/stdin || exit 1
    python3 tests/vectors/lookup_model.py parts <"$vectors" || exit 1
else
    echo "vectors: no python3 here, so $vectors was not made again, and no lookup was held to RULES"
fi
if command -v rustc >/dev/null 2>&1; then
    rustc --edition 2021 -O -o "$tmp/second" tests/vectors/second.rs || exit 1
    "$tmp/second" <"$vectors" || exit 1
    sh tests/oracle/vectors.sh --check
    status=$?
    [ "$status" = 0 ] || [ "$status" = 3 ] || exit 1
    [ "$status" = 0 ] || echo "vectors: so stored answers of the unchanged Rust were not made again"
else
    echo "vectors: no rustc here, so neither Rust's standard library nor the unchanged Rust was asked"
fi
