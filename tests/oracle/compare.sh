#!/bin/sh
# Compares the unchanged Rust with the static library, in one process:
#   sh tests/oracle/compare.sh [LOOKUPS] [SEED]      the slice that test.sh runs: short inputs, random files, real files
#   sh tests/oracle/compare.sh full [LOOKUPS] [SEED] all inline blocks of four bytes too, and 100 million lookups
# Needs rustc and the sources of blazesym 0.2.6 ($BLAZESYM_SRC); answers 3 and says so where they are not there.
set -eu
cd "$(dirname "$0")/../.."
bytes=2
lookups=2000000
if [ "${1:-}" = full ]; then
    bytes=4
    lookups=100000000
    shift
fi
lookups=${1:-$lookups}
seed=${2:-20261115}
corpus=${GSYM_CORPUS:-../shared/corpus}
command -v rustc >/dev/null 2>&1 || { echo "compare: no Rust compiler here, so nothing was compared with the Rust"; exit 3; }
tmp=$(mktemp -d)
trap 'rm -rf "$tmp"' EXIT
sh tests/oracle/build.sh "$tmp" || exit $?
sh tests/oracle/library.sh "$tmp"
rustc --edition 2021 -C opt-level=3 -L "$tmp" --extern "oracle=$tmp/liboracle.rlib" --extern "gsym=$tmp/libgsym.rlib" \
    -l static=gsym -l static=reader_c -o "$tmp/compare" tests/oracle/compare/main.rs
status=0
"$tmp/compare" short $bytes || status=1
"$tmp/compare" files "$seed" "$lookups" || status=1
if [ -d "$corpus" ]; then
    "$tmp/compare" real "$corpus"/*.gsym || status=1
else
    echo "compare: no real files at $corpus (set GSYM_CORPUS)"
fi
exit $status
