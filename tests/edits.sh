#!/bin/sh
# `edits.sh LOG`, with what `rt ci` printed: it refused every must-fail edit, each for a fact that no longer holds. Four
# kinds show nothing, or less, of a contract, and fail here: a bad edit, which can't be applied or read; one that was not
# refused or not tried; one that rt refused "only because a proof file names what the edit took away", as it would refuse
# the right program in that form; and one that it refused "only by a limit" of the prover. rt itself tells them apart, a
# line for each edit. What a refusal can't tell, that the right program in the same form is proved, is told by
# edit_controls.sh. Edits that an earlier run tried on the same files are told again with the word they had.
set -u
log=$(realpath "${1:?what rt ci printed}") || exit 2
cd "$(dirname "$0")/.." || exit 2
count=$(find crates -path '*/must-fail/*.edit' | wc -l)
bad=0
# named WHAT PATTERN: the edits of whose lines PATTERN holds
named() {
    found=$(grep -E 'must-fail [a-z0-9_]+/[^ ]*\.edit: |/must-fail/[^ ]*: BAD EDIT' "$log" | grep -E "$2" | sort -u)
    [ -n "$found" ] || return 0
    bad=$((bad + $(echo "$found" | wc -l)))
    echo "edits: $1:"
    echo "$found" | sed 's/^rt: //; s/must-fail //; s/: .*//; s/^/  /'
}
named "refused for a name in a proof file, and not for a fact" '\(only because'
named "refused by a limit of the prover, and not for a fact" '\(only by a limit'
named "bad" 'BAD EDIT'
named "not refused, or not tried" 'NOT REFUSED|NOT TRIED'
said=$(sed -n 's/^rt: ok;.*; must-fail edits: \([^;]*\);.*/\1/p' "$log")
if [ "$said" != "$count refused" ]; then
    echo "edits: of the $count edits rt says: ${said:-nothing}"
    exit 1
fi
[ "$bad" = 0 ] || { echo "edits: $bad of the $count edits show nothing of a contract"; exit 1; }
echo "edits: all $count refused, each for a fact"
