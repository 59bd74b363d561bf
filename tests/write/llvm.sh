#!/bin/sh
# `llvm.sh [GSYM]`: LLVM's reader says of written files what was given, and of what is made of a real file's text what
# it says of the file (llvm.py). The files are written by `gsym make`, or by the model where no GSYM is given.
# Exit status 1 where something differs, 3 where there is no Python or no llvm-gsymutil.
set -u
cd "$(dirname "$0")/../.." || exit 2
command -v python3 >/dev/null 2>&1 || { echo "tests/write: no python3: LLVM not tried"; exit 3; }
if [ $# -gt 0 ] && [ ! -x "$1" ]; then
    echo "tests/write: there is no program '$1': LLVM not tried"
    exit 3
fi
tried=0
failed=0
for version in 19 14; do
    if reader=$(command -v "llvm-gsymutil-$version"); then
        tried=1
        told=$(python3 tests/write/llvm.py "$reader" "$@") || failed=1
        echo "tests/write: ${told:-nothing told by llvm-gsymutil-$version}"
    fi
done
[ $tried = 1 ] || { echo "tests/write: no llvm-gsymutil-19 and no llvm-gsymutil-14: LLVM not tried"; exit 3; }
exit $failed
