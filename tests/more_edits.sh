#!/bin/sh
# `more_edits.sh [--controls] [CRATE..]`: the edits that the gate has no time for. tests/more_edits/CRATE/NAME.edit is a
# must-fail edit like those in crates/CRATE/must-fail (CONTRIBUTING, "A must-fail edit"), and is refused like them: here
# they are put in the place of those in a copy of the crates, and `rt must-fail` must refuse each for a fact that no longer
# holds. With `--controls` their controls are proved instead, as edit_controls.sh does it. No crate: all that have such
# edits. The copy takes along what `rt check` kept in out/. Not in test.sh: some twenty processor seconds an edit. Needs
# the toolchain, and Python for the controls.
set -u
cd "$(dirname "$0")/.." || exit 2
controls=0
[ "${1:-}" != --controls ] || { controls=1; shift; }
[ $# -gt 0 ] || set -- $(ls tests/more_edits)
copy=$(mktemp -d) || exit 2
trap 'rm -rf "$copy"' EXIT
cp -a crates crates.txt tests "$copy" || exit 2
[ ! -f HANDLES ] || cp HANDLES "$copy"
rm -rf "$copy"/crates/*/must-fail
count=0
for crate; do
    [ -d "tests/more_edits/$crate" ] || { echo "more_edits.sh: tests/more_edits has no $crate"; exit 2; }
    cp -R "tests/more_edits/$crate" "$copy/crates/$crate/must-fail" || exit 2
    count=$((count + $(find "tests/more_edits/$crate" -name '*.edit' | wc -l)))
done
cd "$copy" || exit 2
if [ "$controls" = 1 ]; then
    sh tests/edit_controls.sh "$@"
    exit
fi
rt must-fail "$@" >"$copy/log" 2>&1
refused=$(grep -c ': refused, as it must be' "$copy/log")
shown=$(grep ': refused, as it must be' "$copy/log" | grep -c -vE '\((only because|only by a limit)')
grep -vE ': refused, as it must be(: |$)' "$copy/log"
echo "more_edits: $count edits, $refused refused, $shown of them for a fact"
[ "$shown" = "$count" ]
