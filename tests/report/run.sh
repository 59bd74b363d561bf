#!/bin/sh
# `run.sh REPORT_MAIN GSYM`: the programs do as docs/RULES.md has it, "A report": report_main answers made, real, torn
# and changed inputs as the model does, also by pipes that are slow, endless, closed and full (judge.py); `gsym report`
# prints the same of addresses as words and as bytes, and tells of what is none (tool.py); and what crates/report_cases
# replays is what vectors.py writes. A minute or two.
# Exit status 1 where something differs, 3 where there is no Python, or no such program.
set -u
cd "$(dirname "$0")/../.." || exit 2
command -v python3 >/dev/null 2>&1 || { echo "tests/report: no python3: not tried"; exit 3; }
for program in "$1" "$2"; do
    [ -x "$program" ] || { echo "tests/report: there is no program '$program': not tried"; exit 3; }
done
failed=0
python3 tests/report/vectors.py | cmp - crates/report_cases/stdin || failed=1
judged=$(python3 tests/report/judge.py "$1") || failed=1
printed=$(python3 tests/report/tool.py "$2") || failed=1
if [ $failed = 0 ]; then said="all as RULES has it"; else said="not all as RULES has it"; fi
echo "tests/report: ${judged:-nothing judged}, ${printed:-no tool}: $said"
exit $failed
