#!/bin/sh
# The replay programs can fail: given a vector of each kind with another expected answer, each reports that one and no
# other. Needs the programs of the crates reader_cases, lookup_cases, check_cases, report_cases and write_cases, which
# `rt ci` and `rt run` build.
set -u
cd "$(dirname "$0")/.." || exit 2
tmp=$(mktemp -d) || exit 2
trap 'rm -rf "$tmp"' EXIT

# replay PROGRAM WHAT: the cases end with a remark that counts right and wrong ones; WHAT says what is wrong in them
replay() {
    program=crates/$1/out/$1
    [ -x "$program" ] || { echo "replay: $program is not built"; exit 1; }
    right=$(sed -n 's/^# right \([0-9]*\) wrong [0-9]*$/\1/p' "$tmp/$1")
    wrong=$(sed -n 's/^# right [0-9]* wrong \([0-9]*\)$/\1/p' "$tmp/$1")
    got=$("$program" <"$tmp/$1" | tail -n 1)
    if [ "$wrong" -gt 0 ] && [ "$got" = "$((right + wrong)) cases, $wrong differ" ]; then
        echo "replay: $1 reports a wrong answer $2"
    else
        echo "replay: of $right right and $wrong wrong answers $1 says: $got"
        exit 1
    fi
}

# a number with its last digit raised by one
raised='function raised(word,   digits) {
    digits = "0123456789abcdef"
    return substr(word, 1, length(word) - 1) substr(digits, index(digits, substr(word, length(word))) % 16 + 1, 1)
}'

# for each kind its first case, and the same with its first number raised
awk "$raised"'
!/^#/ && !seen[$1]++ {
    print
    $7 = raised($7)
    print
    kinds++
}
END { print "# right " kinds " wrong " kinds }' crates/reader_cases/stdin >"$tmp/reader_cases"
replay reader_cases "of each of its $(sed -n 's/^# right \([0-9]*\) .*/\1/p' "$tmp/reader_cases") kinds"

# the first whole answer with two records: right, then with each number raised in turn, then with a record too few and
# too many; a digest of the last file: right, then with each number raised; the file's first digit changed; a line of
# no kind
awk "$raised"'
function show(line, record,   i) {
    print line
    for (i = 1; i <= count; i++) print i == 1 ? record : records[i]
}
function with(line, n,   words, i, k, out) {
    k = split(line, words, " ")
    words[n] = raised(words[n])
    for (i = 1; i <= k; i++) out = out (i > 1 ? " " : "") words[i]
    return out
}
$1 == "@" { now = $0 }
$1 == "A" && !whole && $16 == 2 { whole = $0; file = now }
$1 == "R" && whole && count < 2 { records[++count] = $0 }
$1 == "D" && last != now { short = $0; last = now }
END {
    print file
    show(whole, records[1])
    for (n = 5; n <= 16; n++) { show(with(whole, n), records[1]); wrong++ }
    for (n = 2; n <= 8; n++) { show(whole, with(records[1], n)); wrong++ }
    print whole; print records[1]; wrong++
    show(whole, records[1]); print records[2]; wrong++
    print last
    print short
    for (n = 5; n <= 6; n++) { print with(short, n); wrong++ }
    sub(/^@ ./, "@ 0", last)
    print last
    print short; wrong++
    print "X 0"; wrong++
    print "# right 2 wrong " wrong
}' crates/lookup_cases/stdin >"$tmp/lookup_cases"
replay lookup_cases "in each number of a line, in a record too few and too many, and in the file"

# of each number the first case: right, then with the number and with the entry raised; a file cut, and no case
awk "$raised"'
!/^#/ && !seen[$1]++ {
    print
    right++
    print raised($1), $2, $3; wrong++
    print $1, raised($2), $3; wrong++
}
$1 == "0" && !file { file = $3 }
END {
    print "0 0", substr(file, 1, 80); wrong++
    print "X 0"; wrong++
    print "# right " right " wrong " wrong
}' crates/check_cases/stdin >"$tmp/check_cases"
replay check_cases "in the number, in the entry, and in the file"

# the first cases, each right, with the last digit of the output raised, with an output and with none; and no case
awk "$raised"'
!/^#/ && right < 40 {
    print
    right++
    if ($2 != ".") { print $1, raised($2); wrong++; print $1, "."; wrong++ }
    print $1, ($2 == "." ? "" : $2) "0a"; wrong++
}
END {
    print "X"; wrong++
    print "# right " right " wrong " wrong
}' crates/report_cases/stdin >"$tmp/report_cases"
replay report_cases "in a byte of the output, in its length, and where it is none"

# the first case of each number that is expected, each right, then with its last digit raised; a case with no outcome,
# and with none that is one; a word that is none
awk "$raised"'
!/^#/ && match($0, / = [0-9]+/) && !seen[substr($0, RSTART, RLENGTH)]++ {
    print
    right++
    print raised($0); wrong++
    given = substr($0, 1, RSTART - 1)
    print given; wrong++
    print given " ="; wrong++
    print given " more" substr($0, RSTART); wrong++
}
END { print "# right " right " wrong " wrong }' crates/write_cases/stdin >"$tmp/write_cases"
replay write_cases "of each number, in the outcome, where it is none, and where a word is none"
