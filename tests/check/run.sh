#!/bin/sh
# `run.sh GSYM LIBRARY`: the check of a whole file, by the program `gsym` and the shared library, does as docs/RULES.md
# has it, "Checking a file" and "What the tools print": made files with every fault and each pair of faults, real
# files, torn, changed and random ones, lookups in files that pass (judge.py), and what the program prints (tool.py);
# and what crates/check_cases replays is what vectors.py writes.
# About a minute. Exit status 1 where something differs, 3 where there is no Python.
set -u
cd "$(dirname "$0")/../.." || exit 2
command -v python3 >/dev/null 2>&1 || { echo "tests/check: no python3: not tried"; exit 3; }
failed=0
python3 tests/check/vectors.py | cmp - crates/check_cases/stdin || failed=1
judged=$(python3 tests/check/judge.py "$2") || failed=1
printed=$(python3 tests/check/tool.py "$1") || failed=1
if [ $failed = 0 ]; then said="all as RULES has it"; else said="not all as RULES has it"; fi
echo "tests/check: ${judged:-nothing judged}, ${printed:-no tool}: $said"
exit $failed
