#!/bin/sh
# Measures against the unchanged Rust: `sh bench/run.sh [PASSES] [TREE]`, the library of this tree or that of another
# checkout (build.sh). Needs what build.sh and count.sh need. Prints a report for bench/results/: time, instructions, and
# the table of README.md.
set -eu
cd "$(dirname "$0")/.."
passes=${1:-15}
tree=${2:-.}
corpus=${GSYM_CORPUS:-../shared/corpus}
tmp=$(mktemp -d)
trap 'rm -rf "$tmp"' EXIT
sh bench/build.sh "$tmp" "$tree" || exit $?
echo "$(date +%F), $(rt version), $(rustc --version)"
echo "$(uname -m), $(nproc) processors$(sed -n 's/^model name[^:]*: /, /p' /proc/cpuinfo | head -n 1)"

for build in whole one; do
    [ $build = whole ] && name="as a whole module" || name="with one caller"
    for kind in line inline; do
        echo
        echo "$kind blocks, the Rust $name"
        "$tmp/${kind}_$build" "$tmp/vmlinux612.gsym" check
        "$tmp/${kind}_$build" "$tmp/vmlinux612.gsym" time "$passes"
    done
done

set -- "$tmp/vmlinux612.gsym" "$corpus/cpp-gcc.gsym" "$corpus/rs-calc.gsym" tables rows letters
for file in "$@"; do "$tmp/lookup" "$file" check; done
for file in "$@"; do
    echo
    case $file in
    *.gsym) echo "lookups in $(basename "$file" .gsym), 100,000 addresses" ;;
    tables) echo "one lookup in a file made for it: 2,000,000 line tables" ;;
    rows) echo "one lookup in a file made for it: 2,000,000 line tables of one row" ;;
    letters) echo "lookups in a file made for them, 100,000 addresses: 1,024 names of 64 letters" ;;
    esac
    "$tmp/lookup" "$file" time "$passes"
done | tee "$tmp/times"

if [ -f "$tmp/report" ]; then
    echo
    echo "reports of 256 addresses, vmlinux612: 400 of them, crash address and return addresses, with inlining"
    "$tmp/report" "$tmp/vmlinux612.gsym" check
    "$tmp/report" "$tmp/vmlinux612.gsym" time "$passes" | tee "$tmp/report_time"
fi

echo
echo "the check of a whole file, vmlinux612, beside a plain walk of it by the Rust"
"$tmp/check" "$tmp/vmlinux612.gsym" check
"$tmp/check" "$tmp/vmlinux612.gsym" time "$passes"

if [ -f "$tmp/write" ]; then
    echo
    echo "writing the content of vmlinux612, beside a copy of as many bytes"
    "$tmp/write" "$tmp/vmlinux612.gsym" check
    "$tmp/write" "$tmp/vmlinux612.gsym" time "$passes"
fi

echo
echo "instructions of one pass, of every tenth address or list where it looks up or reports: the Rust, this, ratio"
status=0
sh bench/count.sh "$tree" >"$tmp/counts" || status=$?
[ $status = 0 ] || [ $status = 3 ] || exit $status
cat "$tmp/counts"

# the table of README.md: for each file the ratios of instructions; of time, rising / shuffled
echo
awk -F ' [|] |, ratio ' '
    FNR == NR { count[$1] = $4; next }
    /^lookups in .*, 100,000 addresses$/ { file = $1; sub(/^lookups in /, "", file); sub(/,.*/, "", file); files[++n] = file }
    / made for / { exit }
    / ratio / {
        kind = $1; sub(/:.*/, "", kind)
        if (sub(/, shuffled/, "", kind)) other[file ", " kind] = $2; else time[file ", " kind] = $2
    }
    END {
        printf "| Asked for |"; for (i = 1; i <= n; i++) printf " %s |", files[i]
        printf "\n|---|"; for (i = 1; i <= n; i++) printf "---|"
        split("name,code info,inlining", kinds, ",")
        for (k = 1; k <= 3; k++) {
            printf "\n| %s |", kinds[k]
            for (i = 1; i <= n; i++) {
                at = files[i] ", " kinds[k]
                printf " %s; %s / %s |", (at in count ? count[at] : "-"), time[at], other[at]
            }
        }
        print ""
    }' "$tmp/counts" "$tmp/times"
if [ -f "$tmp/report" ]; then # of the first file alone
    count=$(sed -n 's/^vmlinux612, reports .* | //p' "$tmp/counts")
    echo "| report of 256 addresses | ${count:--}; $(sed -n 's/.*, ratio //p' "$tmp/report_time") | | |"
fi

echo
echo "nanoseconds a lookup by name: entries, Rust, this"
"$tmp/lookup" scale4 "$passes" | tee "$tmp/scale"
if command -v python3 >/dev/null 2>&1; then
    python3 bench/plot.py <"$tmp/scale" >bench/results/entries.svg && echo "plotted in bench/results/entries.svg"
fi

echo
echo "the same, where entries have eight bytes"
"$tmp/lookup" scale8 "$passes"

echo
echo "nanoseconds a lookup by name among 100,000 entries: how many of them stand at one address, Rust, this, ratio"
"$tmp/lookup" runs "$passes"

echo
"$tmp/stack" 16384 open
"$tmp/stack" 16384 closed
