#!/bin/sh
# `run.sh GSYM`: `gsym dump` and `gsym make` do as docs/RULES.md has it, "A file as text" and "Writing a file": made,
# real and changed files as text, right and wrong texts, where NEW is put, and lookups in what is made of real files
# (tool.py); and what crates/write_cases replays is what vectors.py and texts.py write, and as the model has it.
# A minute or two. Real files are those of the folder GSYM_CORPUS; with GSYM_LARGE=1 the largest of them too.
# Exit status 1 where something differs, 3 where there is no Python, or no such program.
set -u
cd "$(dirname "$0")/../.." || exit 2
command -v python3 >/dev/null 2>&1 || { echo "tests/write: no python3: not tried"; exit 3; }
[ -x "${1:-}" ] || { echo "tests/write: there is no program '${1:-}': not tried"; exit 3; }
failed=0
{ python3 tests/write/vectors.py && python3 tests/write/texts.py; } | cmp - crates/write_cases/stdin || failed=1
replayed=$(python3 tests/write/vectors.py replay) || failed=1
ran=$(python3 tests/write/tool.py "$1") || failed=1
if [ $failed = 0 ]; then said="all as RULES has it"; else said="not all as RULES has it"; fi
echo "tests/write: ${replayed:-no vectors}, ${ran:-no tool}: $said"
exit $failed
