#!/bin/sh
# Counts lines without blanks and comments, of the working tree or of a commit: `sh tools/lines.sh [COMMIT]`. A line a
# crate and one over all: code (src/), definitions (specs/), proofs (proofs/), must-fail edits.
set -u
cd "$(dirname "$0")/.." || exit 2
if [ $# -gt 0 ]; then
    tmp=$(mktemp -d) || exit 2
    trap 'rm -rf "$tmp"' EXIT
    git archive "$1" crates | tar xf - -C "$tmp" || exit 2
    cd "$tmp" || exit 2
fi
# lines CRATE FOLDER ENDING COMMENT
lines() {
    [ -d "$1/$2" ] || { echo 0; return; }
    find "$1/$2" -name "*.$3" -exec cat {} + | grep -cvE "^[[:space:]]*($4.*)?\$"
}
echo "crate code definitions proofs edits"
for crate in crates/*; do
    [ -d "$crate/src" ] || continue
    edits=0
    [ ! -d "$crate/must-fail" ] || edits=$(find "$crate/must-fail" -name '*.edit' | wc -l)
    echo "${crate#crates/} $(lines "$crate" src rt //) $(lines "$crate" specs antt --) $(lines "$crate" proofs antt --) $edits"
done | awk '{ print; for (i = 2; i <= 5; i++) n[i] += $i } END { print "all", n[2], n[3], n[4], n[5] }'
