#!/bin/sh
# The inputs of docs/DIFFERENCES.md, made and run anew, the answers compared with table.txt: `run.sh [GSYM-ADDR2LINE]`.
# RULES' answers always; the unchanged Rust's where its sources and rustc are ($BLAZESYM_SRC, see tests/oracle), LLVM's
# by each llvm-gsymutil of a version that the table has a column for (those installed, and the programs that
# $LLVM_GSYMUTIL names), the reader's own where its program is named. With the Rust, random files inside the domain of
# the comparison too ($DIFFERENCES_RANDOM of them, else 5,000), where none may differ.
# Exit status 1 where an answer differs, 3 where nothing could be compared.
set -u
cd "$(dirname "$0")/../.." || exit 2
here=tests/differences
command -v python3 >/dev/null 2>&1 || { echo "differences: no python3 here, nothing compared"; exit 3; }
tmp=$(mktemp -d) || exit 2
trap 'rm -rf "$tmp"' EXIT
mkdir "$tmp/inputs"
export PYTHONDONTWRITEBYTECODE=1
set -- "${1:-}"
tool=$1
set -- "$tmp/inputs"
[ -z "$tool" ] || set -- "$@" --tool "$tool"

rust=
if command -v rustc >/dev/null 2>&1; then
    sh tests/oracle/build.sh "$tmp" && rust=$tmp/rust
    status=$?
    [ $status = 0 ] || [ $status = 3 ] || exit 1
else
    echo "differences: no rustc here, the Rust is not run"
fi
if [ -n "$rust" ]; then
    ORACLE_SOURCES=$PWD/tests/oracle rustc --edition 2021 -O -L "$tmp" --extern "oracle=$tmp/liboracle.rlib" \
        -o "$rust" $here/rust.rs || exit 1
    set -- "$@" --rust "$rust"
fi

columns=$(sed -n 's/^LLVMS = \[\(.*\)\].*/\1/p' $here/compare.py | tr -d '",')
for version in $columns; do
    found=
    for program in ${LLVM_GSYMUTIL:-} "llvm-gsymutil-$version" "/usr/lib/llvm-$version/bin/llvm-gsymutil" llvm-gsymutil; do
        program=$(command -v "$program") || continue
        [ -n "$found" ] || ! "$program" --version | grep -q "LLVM version $version\." || found=$program
    done
    if [ -n "$found" ]; then
        set -- "$@" --llvm "$found"
    else
        echo "differences: no llvm-gsymutil $version here (LLVM_GSYMUTIL may name it), LLVM $version is not run"
    fi
done

status=0
python3 $here/compare.py "$@" || status=1
[ -z "$rust" ] || python3 $here/inside.py "$rust" "${DIFFERENCES_RANDOM:-5000}" || status=1
exit $status
