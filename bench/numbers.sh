#!/bin/sh
# LEB128 numbers in each place where they are read (numbers.rs says what a figure is): `numbers.sh [PASSES [TREE..]]`.
# It prints how long the numbers of the corpus' kernel file are, and then a line a place and length, `PLACE | BYTES |
# instructions a number | nanoseconds a number`, each for the Rust as a whole module, the Rust with one caller, and each
# TREE: `.`, which it is if none is named, or another checkout with its libraries built (build.sh). The Rust's figures
# are from the run beside the first TREE. Needs what build.sh needs, and valgrind; answers 3 and says so where they are
# not there.
set -eu
cd "$(dirname "$0")/.."
passes=${1:-15}
case $passes in *[!0-9]*) echo "bench: '$passes' is no number of passes"; exit 2 ;; esac
[ $# = 0 ] || shift
[ $# -gt 0 ] || set -- .
command -v valgrind >/dev/null 2>&1 || { echo "bench: no valgrind here, nothing was counted"; exit 3; }
tmp=$(mktemp -d)
trap 'rm -rf "$tmp"' EXIT
trees=
for tree; do
    i=$((${trees##* } + 1))
    trees="$trees $i"
    sh bench/build.sh "$tmp/$i" "$tree" || exit $?
    for build in whole one; do
        [ $i = 1 ] || [ $build = whole ] || continue
        "$tmp/$i/numbers_$build" check >"$tmp/log" 2>&1 || { cat "$tmp/log"; exit 1; }
        "$tmp/$i/numbers_$build" time "$passes" >"$tmp/$i/times_$build"
    done
done

# one pass of a side, by the number
count() { # PROGRAM SIDE PLACE BYTES NUMBERS
    valgrind --tool=callgrind --callgrind-out-file="$tmp/cg" --toggle-collect="*${2}_pass*" "$1" "$2" "$3" "$4" \
        </dev/null >"$tmp/log" 2>&1 || { cat "$tmp/log"; exit 1; }
    awk -v n="$5" '/Collected : / && $4 > 0 { printf " %.2f", $4 / n; told = 1 } END { exit !told }' "$tmp/log"
}

# what `time` printed of the Rust, column 3, or of this reader, column 4
time_of() { # FILE COLUMN PLACE BYTES
    awk -F ' [|] ' -v column="$2" -v place="$3" -v bytes="$4" '
        $1 == place && $2 == bytes { printf " %s", $column; told = 1 } END { exit !told }' "$1"
}

echo "numbers of vmlinux612: kind | of one byte | of two | of three | of more"
"$tmp/1/numbers_whole" lengths "$tmp/1/vmlinux612.gsym"
echo
echo "place | bytes | instructions a number | nanoseconds a number"
"$tmp/1/numbers_whole" list | sed 's/ | /|/g' >"$tmp/list"
while IFS='|' read -r place bytes numbers; do
    printf '%s | %s |' "$place" "$bytes"
    for build in whole one; do count "$tmp/1/numbers_$build" rust "$place" "$bytes" "$numbers"; done
    for i in $trees; do count "$tmp/$i/numbers_whole" rattle "$place" "$bytes" "$numbers"; done
    printf ' |'
    for build in whole one; do time_of "$tmp/1/times_$build" 3 "$place" "$bytes"; done
    for i in $trees; do time_of "$tmp/$i/times_whole" 4 "$place" "$bytes"; done
    echo
done <"$tmp/list"
