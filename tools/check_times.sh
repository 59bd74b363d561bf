#!/bin/sh
# How long each crate's check takes from nothing, as a table for CHANGES.md: `sh tools/check_times.sh [CRATE..]`, before
# a change and after it, on a machine with nothing else to do. `rt verdict` proves a crate from nothing, with its tests,
# on what is there of those below it, so the crates are taken in the order of crates.txt, which is bottom up. It works in
# a copy, and leaves what other checks kept as it is. Edits are not in it: `rt ci` tells their part.
set -u
cd "$(dirname "$0")/.." || exit 2
copy=$(mktemp -d) || exit 2
trap 'rm -rf "$copy"' EXIT
tar cf - --exclude=out crates crates.txt | tar xf - -C "$copy" || exit 2
[ ! -f HANDLES ] || cp HANDLES "$copy"
[ $# -gt 0 ] || set -- $(sed -n 's/#.*//; s/^\([a-z0-9_]*\)[ :].*/\1/p' crates.txt)

echo "$(rt version); $(uname -m), $(nproc) processors$(sed -n 's/^model name[^:]*: /, /p' /proc/cpuinfo | head -n 1)"
echo
echo "| Crate | Check from nothing, s |"
echo "|---|---|"
start=$(date +%s)
status=0
for crate; do
    before=$(date +%s)
    if (cd "$copy/crates/$crate" && rt verdict) >"$copy/log" 2>&1; then
        echo "| $crate | $(($(date +%s) - before)) |"
    else
        echo "| $crate | not proved |"
        tail -n 5 "$copy/log" >&2
        status=1
    fi
done
echo "| all | $(($(date +%s) - start)) |"
exit "$status"
