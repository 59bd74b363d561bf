#!/bin/sh
# `harms.sh`: vectors.py and tool.py can fail. They pass the model and the model as a program (tool_stand_in.py), and
# report each fault of faults.txt that is planted there. Ten minutes or less. Exit status 1 where one is not reported, 3
# where there is no Python.
set -u
cd "$(dirname "$0")/../.." || exit 2
command -v python3 >/dev/null 2>&1 || { echo "tests/write: no python3: not tried"; exit 3; }
tmp=$(mktemp -d) || exit 2
trap 'rm -rf "$tmp"' EXIT
GSYM_CORPUS="$tmp" python3 tests/write/faults.py "$@"
