#!/bin/sh
# All tests, from nothing: the kit's version, the promises' page, the wording of refusals, every proof, the layout of the
# sources, every must-fail edit and every program, then what hosts get and the comparison with the Rust. The last line
# printed is rt's own 'N passed, M failed'; the exit status is 0 only where nothing failed. Needs the Rattle toolchain
# and no network.
set -u
cd "$(dirname "$0")" || exit 2

fail() {
    echo "test.sh: $*"
    exit 1
}

sh tools/kit.sh || fail "no kit to test with (above)"

sh tests/promises.sh || fail "docs/PROMISES.md and the public functions disagree (above)"
sh tests/wording.sh || fail "refusals, the version or the layout are told in two ways (above)"

# rt's last line is held back until the edits' reasons are judged, so that it stays the last one printed
tmp=$(mktemp -d) || exit 2
trap 'rm -rf "$tmp"' EXIT
{ rt ci 2>&1; echo $? >"$tmp/status"; } | tee "$tmp/log" | awk 'NR > 1 { print last; fflush() } { last = $0 }'
status=$(cat "$tmp/status")
if [ "$status" = 0 ]; then
    sh tests/edits.sh "$tmp/log" || status=1
    sh tests/replay.sh || status=1
    sh tests/vectors/check.sh || status=1
    sh tests/hosts.sh || status=1
    # 3: what it compares with is not on this machine, which it says
    sh tests/oracle/corpus.sh || [ $? = 3 ] || status=1
    sh tests/oracle/compare.sh || [ $? = 3 ] || status=1
    sh tests/fuzz/torn.sh || [ $? = 3 ] || status=1
fi
tail -n 1 "$tmp/log"
exit "$status"
