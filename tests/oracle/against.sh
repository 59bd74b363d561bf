#!/bin/sh
# Compares two builds of the C library in one process: `against.sh OLD [CALLS] [SEED]`, where OLD is a checkout whose
# libgsym.a has been built (`make libgsym.a` there) and the other is this tree's, or that of the checkout $AGAINST_NEW.
# The calls of OLD's are renamed. Inputs: random files, half of them damaged, as in compare.sh, so many calls (else
# 10,000,000); every edge of every symbol of the real files ($GSYM_CORPUS), every prefix of the small ones, and copies
# of them with bytes changed. Wants every field of every answer and record equal, and the rest of the list as it was,
# and of each of these files the same found by its check, where OLD has checks.
# With $AGAINST_WIDE OLD is of before refusal 15: its 9 or 10 must be 15 here exactly where the domain's own reading
# meets a number of a line header or a node that is too wide, and all else equal. Where that reading stops before it
# knows (a table that falls, past a first run, a sum too large) either is taken. Both are counted. It fails where OLD
# has 15 already.
# First it shows that it sees faults. Exit status 1 where an answer differs, 3 where something it needs is not here.
set -eu
cd "$(dirname "$0")/../.."
old=${1:?a checkout whose libgsym.a has been built}
calls=${2:-10000000}
seed=${3:-20261126}
new=${AGAINST_NEW:-.}
corpus=${GSYM_CORPUS:-../shared/corpus}
for tool in rustc objcopy; do
    command -v $tool >/dev/null 2>&1 || { echo "against: there is no '$tool' here, so nothing was compared"; exit 3; }
done
[ -f "$old/libgsym.a" ] || { echo "against: $old has no libgsym.a: run make libgsym.a there"; exit 3; }
tmp=$(mktemp -d)
trap 'rm -rf "$tmp"' EXIT
[ "$new" != . ] || make libgsym.a >"$tmp/rt.log" 2>&1 || { tail -n 20 "$tmp/rt.log"; exit 1; }
cp "$new/libgsym.a" "$tmp/libgsym.a"
# before layouts had a number the calls had their plain names
layout=
! nm "$old/libgsym.a" | grep -q "T gsym_lookup_2$" || layout=_2
checks="--cfg old_has_check"
if ! nm "$old/libgsym.a" | grep -q "T gsym_check$layout$"; then
    echo "against: $old has no checks, so none is compared"
    checks=
fi
objcopy --redefine-sym "gsym_lookup$layout=old_gsym_lookup" --redefine-sym gsym_version=old_gsym_version \
    --redefine-sym "gsym_block_frames$layout=old_gsym_block_frames" \
    --redefine-sym "gsym_check$layout=old_gsym_check" "$old/libgsym.a" "$tmp/libold.a"
# shellcheck disable=SC2086
rustc --edition 2021 -C opt-level=3 $checks -L "$tmp" -l static=gsym -l static=old -o "$tmp/against" \
    tests/oracle/against/main.rs
status=0
"$tmp/against" faults || status=1
"$tmp/against" random "$seed" "$calls" || status=1
if [ -f "$corpus/tiny1.gsym" ]; then
    for packed in "$corpus"/*.gsym.xz; do
        [ ! -f "$packed" ] || xz -dc "$packed" >"$tmp/$(basename "$packed" .xz)"
    done
    "$tmp/against" real "$corpus"/*.gsym "$tmp"/*.gsym host/sample/connector.gsym || status=1
    "$tmp/against" torn "$corpus"/*.gsym host/sample/connector.gsym || status=1
    "$tmp/against" changed 5000 "$corpus"/*.gsym host/sample/connector.gsym || status=1
else
    echo "against: no real files at $corpus (set GSYM_CORPUS)"
fi
exit $status
