#!/bin/sh
# Instructions by callgrind, which repeat exactly: `count.sh [TREE] [BASE]` prints a line a row, `ROW | the Rust | this |
# ratio`. The library is this tree's, or that of another checkout TREE (build.sh). With BASE, what an earlier run printed,
# each line ends with the ratio to this reader's count there, and the exit status is 1 where one is above 1.01 or a row of
# BASE is missing. Needs what build.sh needs, and valgrind; answers 3 and says so where they are not there.
set -eu
cd "$(dirname "$0")/.."
tree=${1:-.}
base=${2:-/dev/null}
command -v valgrind >/dev/null 2>&1 || { echo "bench: no valgrind here, nothing was counted"; exit 3; }
corpus=${GSYM_CORPUS:-../shared/corpus}
tmp=$(mktemp -d)
trap 'rm -rf "$tmp"' EXIT
sh bench/build.sh "$tmp" "$tree" || exit $?

# one pass of a side, less what comes before it: reading or making the file, finding blocks and addresses
pass() { # SIDE PROGRAM FILE WORDS..
    side=$1
    shift
    valgrind --tool=callgrind --callgrind-out-file="$tmp/cg" --toggle-collect="*${side}_pass*" "$@" 2>&1 |
        sed -n 's/.*Collected : //p'
}

row() { # ROW PROGRAM FILE [KIND]
    row=$1 program=$2 file=$3
    shift 3
    r=$(pass rust "$tmp/$program" "$file" rust "$@")
    q=$(pass rattle "$tmp/$program" "$file" rattle "$@")
    was=$(awk -F ' [|] ' -v row="$row" '$1 == row { print $3 }' "$base")
    awk -v row="$row" -v r="$r" -v q="$q" -v was="$was" 'BEGIN {
        printf "%s | %s | %s | %.3f", row, r, q, q / r
        if (was != "") printf " | %.4f of the base", q / was
        print ""
        exit was != "" && q / was > 1.01
    }' || status=1
    echo "$row" >>"$tmp/rows"
}

status=0
for kind in line inline; do
    row "$kind blocks, the Rust as a whole module" ${kind}_whole "$tmp/vmlinux612.gsym"
    row "$kind blocks, the Rust with one caller" ${kind}_one "$tmp/vmlinux612.gsym"
done
for file in "$tmp/vmlinux612.gsym" "$corpus/cpp-gcc.gsym" "$corpus/rs-calc.gsym"; do
    for kind in name "code info" inlining; do
        row "$(basename "$file" .gsym), $kind" lookup "$file" "$kind"
    done
done
reports="vmlinux612, reports of 256 addresses"
if [ -f "$tmp/report" ]; then
    row "$reports" report "$tmp/vmlinux612.gsym"
else # a TREE that is older than reports: the row isn't missing
    echo "$reports" >>"$tmp/rows"
fi
row "vmlinux612, check, the Rust a plain walk" check "$tmp/vmlinux612.gsym"
writing="vmlinux612, writing, the Rust a copy of the file"
if [ -f "$tmp/write" ]; then
    row "$writing" write "$tmp/vmlinux612.gsym"
else # likewise
    echo "$writing" >>"$tmp/rows"
fi
row "tables without a row" lookup tables "tables without a row"
row "line tables of one row" lookup rows "line tables of one row"
row "names of two-byte letters" lookup letters "names of two-byte letters"

missing=$(awk -F ' [|] ' 'NR == FNR { seen[$1] = 1; next } NF > 2 && !/^#/ && !($1 in seen) { print $1 }' "$tmp/rows" "$base")
[ -z "$missing" ] || { echo "bench: rows of $base that were not counted: $missing"; status=1; }
exit $status
