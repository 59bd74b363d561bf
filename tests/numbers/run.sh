#!/bin/sh
# `run.sh LIBRARY`: numbers of ten bytes that fit, that are too wide and that are cut, in every place of a node, of a
# line header and of a line program, by the shared library (every.py, README.md). Some 30 seconds. Exit status 1 where
# something differs, 3 where there is no Python or no library.
set -u
cd "$(dirname "$0")/../.." || exit 2
library=${1:-libgsym.so.0}
command -v python3 >/dev/null 2>&1 || { echo "tests/numbers: no python3: not tried"; exit 3; }
[ -f "$library" ] || { echo "tests/numbers: there is no library '$library': not tried"; exit 3; }
export PYTHONDONTWRITEBYTECODE=1
python3 tests/numbers/every.py "$library"
