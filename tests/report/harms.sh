#!/bin/sh
# `harms.sh`: judge.py and tool.py can fail. They pass the model as a program (stand_in.py, tool_stand_in.py), and
# report it with each of the faults that are planted there, by the part that is named beside it. Some two minutes. Exit
# status 1 where one is not reported, 3 where there is no Python.
set -u
cd "$(dirname "$0")/../.." || exit 2
command -v python3 >/dev/null 2>&1 || { echo "tests/report: no python3: not tried"; exit 3; }
python=$(python3 -c 'import sys; print(sys.executable)') # the name may be that of a script, which takes its time
tmp=$(mktemp -d) || exit 2
trap 'rm -rf "$tmp"' EXIT
export GSYM_CORPUS="$tmp"
seen=0
failed=0

# tries JUDGE STAND-IN PART..: the right program passes these parts; with a fault one is reported, and nothing else is
# wrong
tries() {
    judge=tests/report/$1
    here=$PWD/tests/report/$2.py
    program=$tmp/$2
    shift 2
    printf '#!/bin/sh\nSTAND_IN_INPUT=3 exec "%s" -S "%s" "$@" 3<&0 </dev/null\n' "$python" "$here" >"$program"
    chmod +x "$program"
    if ! "$python" "$judge" "$program" "$@" >"$tmp/out" 2>"$tmp/errors"; then
        cat "$tmp/errors"
        echo "tests/report: $judge doesn't pass the right program"
        failed=1
        return
    fi
    "$python" "$here" --faults >"$tmp/faults"
    while read -r fault part; do
        STAND_IN_FAULT=$fault "$python" "$judge" "$program" --first "$part" >"$tmp/out" 2>"$tmp/errors" </dev/null
        if [ $? = 1 ] && grep -q '^tests/report: ' "$tmp/errors" && ! grep -q Traceback "$tmp/errors"; then
            seen=$((seen + 1))
        else
            cat "$tmp/errors"
            echo "tests/report: $judge doesn't see $fault in $part"
            failed=1
        fi
    done <"$tmp/faults"
}

tries judge.py stand_in vectors slow_input endless_input bad_input slow_output closed_output full_output
tries tool.py tool_stand_in
echo "tests/report: judge.py and tool.py report $seen faults"
exit $failed
