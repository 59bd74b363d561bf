#!/bin/sh
# `run.sh LIBRARY`: which entry an address has, by the shared library, in every small address table and in long ones
# with runs of equal entries (every.py, README.md), and in what of that the unchanged Rust parts, where its sources and
# rustc are ($BLAZESYM_SRC, see tests/oracle). Some 40 seconds. Exit status 1 where something differs, 3 where there is
# no Python or no library.
set -u
cd "$(dirname "$0")/../.." || exit 2
library=${1:-libgsym.so.0}
command -v python3 >/dev/null 2>&1 || { echo "tests/runs: no python3: not tried"; exit 3; }
[ -f "$library" ] || { echo "tests/runs: there is no library '$library': not tried"; exit 3; }
export PYTHONDONTWRITEBYTECODE=1
tmp=$(mktemp -d) || exit 2
trap 'rm -rf "$tmp"' EXIT
set -- "$library"
status=3
if command -v rustc >/dev/null 2>&1; then
    sh tests/oracle/build.sh "$tmp"
    status=$?
    [ $status = 0 ] || [ $status = 3 ] || exit 1
else
    echo "tests/runs: no rustc here"
fi
if [ $status = 0 ]; then
    ORACLE_SOURCES=$PWD/tests/oracle rustc --edition 2021 -O -L "$tmp" --extern "oracle=$tmp/liboracle.rlib" \
        -o "$tmp/rust" tests/differences/rust.rs || exit 1
    set -- "$@" "$tmp/rust"
else
    echo "tests/runs: the Rust is not run"
fi
python3 tests/runs/every.py "$@"
