#!/bin/sh
# `both.sh GSYM TOOL`: the program `gsym` (crates/gsym_tool) and gsym-addr2line print the same bytes and end with the
# same status: each form of output, for every address of the sample, words that are none, torn and other files, and the
# addresses of real files where they are there ($GSYM_CORPUS). Complaints differ in the name before them alone. Exit
# status 1 where they differ.
set -u
cd "$(dirname "$0")/../.." || exit 2
gsym=$1
tool=$2
sample=host/sample/connector.gsym
corpus=${GSYM_CORPUS:-../shared/corpus}
tmp=$(mktemp -d) || exit 2
trap 'rm -rf "$tmp"' EXIT
runs=0
failed=0

# both INPUT ARGUMENTS..
both() {
    input=$1
    shift
    runs=$((runs + 1))
    "$gsym" addr2line "$@" <"$input" >"$tmp/gsym" 2>"$tmp/gsym.told"
    echo "status $?" >>"$tmp/gsym"
    "$tool" "$@" <"$input" >"$tmp/tool" 2>"$tmp/tool.told"
    status=$?
    echo "status $status" >>"$tmp/tool"
    # what the system says of an error has its number in one of them, and the usage is the tool's own
    for told in gsym tool; do
        sed -e 's/^gsym[-a-z0-9]*: //' -e 's/ (os error [0-9]*)$//' -e '/^usage: /,$d' "$tmp/$told.told" \
            >"$tmp/$told.said"
    done
    cmp -s "$tmp/gsym" "$tmp/tool" && cmp -s "$tmp/gsym.said" "$tmp/tool.said" && return
    echo "tests/host/both: $*: they differ"
    diff "$tmp/gsym" "$tmp/tool" | head -n 6
    diff "$tmp/gsym.said" "$tmp/tool.said" | head -n 6
    failed=1
}

# each INPUT FILE: in every form
each() {
    for form in -- -a -fi -afip -fsip --json "-f --refusals" "-p --refusals" "-afp --base 100 --return-addresses"; do
        # shellcheck disable=SC2086 # a form is several words
        both "$1" -e "$2" $form
    done
}

awk 'BEGIN { for (a = 4080; a < 4704; a++) printf "0x%x %X\n", a, a }' >"$tmp/addresses"
printf 'zz 0x 11g 10000000000000001155\n\n 1155\000 1065\t\r1000\n10\033[2J a\302\205b \205\240\nfff' >"$tmp/words"
each "$tmp/addresses" $sample
each "$tmp/words" $sample
: >"$tmp/empty"
printf 'GSYM\000\001\010\024' >"$tmp/swapped"
printf '\177ELF\002\001\001' >"$tmp/elf"
printf 'MYSG\002\000' >"$tmp/version"
head -c 100 $sample >"$tmp/torn"
for file in empty swapped elf version torn none; do
    both /dev/null -e "$tmp/$file" 1000
done
printf -- "-f -e '%s'\n  \"10\"d0 1\\\\000 \"a b\" \\\\" $sample >"$tmp/arguments"
both /dev/null "@$tmp/arguments" -p 1065
# a zero byte, in a word, between two, in quotes and behind a backslash: no word can have one
for text in '-e a\000b 1000' '1000 \000 1065' '"\000"' '1000 \\\000' '\000'; do
    # shellcheck disable=SC2059 # the text is a form
    printf -- "$text" >"$tmp/arguments"
    both /dev/null -e $sample "@$tmp/arguments" 1065
    [ "$status" = 2 ] || { echo "tests/host/both: $text: not refused"; failed=1; }
done
both /dev/null -e $sample "@$tmp/none" "$(printf '\377')" ""
for words in "-e" "--exe" "-fie" "--base" "--frob" "-x" "-fx" "-:" "-$(printf '\377')" "--json=1" "--addresses=1" \
    "--pretty=1" "--help=1" "--version=1" "-f --return-addresses=1 1000" "--=" "1000" "" "-e $sample --base zz" \
    "-e $sample --base=5000 6000"; do
    # shellcheck disable=SC2086 # several words
    both /dev/null $words
done
both "$tmp" -e $sample
real="and at the addresses of real files"
if [ ! -d "$corpus" ]; then
    real="no real files at $corpus"
elif ! command -v xz >/dev/null 2>&1; then
    real="real files were not tried, there is no xz"
else
    for file in "$corpus"/*.gsym; do
        xz -dc "${file%.gsym}.llvm.tsv.xz" | cut -f1 >"$tmp/real"
        each "$tmp/real" "$file"
    done
fi
[ $failed = 0 ] && echo "tests/host/both: $runs runs, the same bytes; $real"
exit $failed
