#!/bin/sh
# Shows that the comparison sees faults: each line of mutants.txt is a fault in a copy of the Rust's files, and the random
# files of compare.sh must report a difference within a minute. Prints what was seen, and how soon; exit status 1 where a
# fault was not. Needs what compare.sh needs, and python3.
set -eu
cd "$(dirname "$0")/../.."
here=tests/oracle
src=${BLAZESYM_SRC:-../shared/docs/src}
tmp=$(mktemp -d)
trap 'rm -rf "$tmp"' EXIT
sh tests/oracle/library.sh "$tmp"
seen=0
missed=0
grep -v '^#' $here/mutants.txt >"$tmp/list"
while IFS= read -r line; do
    rm -rf "$tmp/src" "$tmp/out"
    cp -r "$src" "$tmp/src"
    chmod -R u+w "$tmp/src"
    python3 - "$tmp/src/src/gsym" "$line" <<'PY'
import pathlib, sys
name, old, new = (part.strip() for part in sys.argv[2].split(" | "))
path = pathlib.Path(sys.argv[1]) / name
text = path.read_text()
if text.count(old) != 1:
    sys.exit(f"mutants: '{old}' stands {text.count(old)} times in {name}")
path.write_text(text.replace(old, new))
PY
    ORACLE_MUTANT=1 ORACLE_FLAGS="-C opt-level=1" BLAZESYM_SRC="$tmp/src" sh $here/build.sh "$tmp/out"
    rustc --edition 2021 -C opt-level=1 -L "$tmp" --extern "oracle=$tmp/out/liboracle.rlib" -L "$tmp/out" \
        --extern "gsym=$tmp/libgsym.rlib" -l static=gsym -l static=reader_c -o "$tmp/compare" $here/compare/main.rs
    start=$(date +%s)
    if timeout 60 "$tmp/compare" files 7 1000000 >"$tmp/said"; then
        echo "not seen: $line"
        missed=$((missed + 1))
    elif grep -q "differs:" "$tmp/said"; then
        seen=$((seen + 1))
        echo "seen in $(($(date +%s) - start)) s: $line"
    else
        echo "no verdict: $line"
        missed=$((missed + 1))
    fi
done <"$tmp/list"
echo "mutants: $seen faults seen, $missed not"
[ $missed = 0 ]
