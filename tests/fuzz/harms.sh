#!/bin/sh
# The fuzzing target can fail: replays the first inputs on the library with each of the faults of harmed.h added, which
# must be reported, and with none, which must not. Needs what run.sh leaves in target/fuzz. Exit status 1 where a fault
# isn't reported, 3 where there is no clang or run.sh has not run. CLANG is honoured.
set -u
cd "$(dirname "$0")/../.." || exit 2
clang=${CLANG:-clang}
out=target/fuzz
library="libgsym.a target/libreport_c.a target/libgsym_write.a"
command -v "$clang" >/dev/null 2>&1 || { echo "harms: not run, there is no '$clang' here"; exit 3; }
[ -d $out/first ] && [ -f libgsym.a ] && [ -f target/libreport_c.a ] && [ -f target/libgsym_write.a ] ||
    { echo "harms: not run, tests/fuzz/run.sh has not run here"; exit 3; }
tmp=$(mktemp -d) || exit 2
trap 'rm -rf "$tmp"' EXIT
# shellcheck disable=SC2086
"$clang" -std=c11 -D_GNU_SOURCE -g -O1 -Iinclude -Itests/fuzz -include harmed.h -fsanitize=fuzzer,address,undefined \
    -fno-sanitize-recover=all -o "$tmp/fuzz" tests/fuzz/target.c $library >"$tmp/log" 2>&1 ||
    { cat "$tmp/log"; echo "harms: target.c doesn't compile"; exit 1; }
last=$(sed -n 's/^    case \([0-9]*\):.*/\1/p' tests/fuzz/harmed.h | tail -n 1)
status=0
n=0
while [ "$n" -le "$last" ]; do
    HARM=$n nice -n 19 "$tmp/fuzz" -runs=0 -detect_leaks=0 -artifact_prefix="$tmp/" $out/first >"$tmp/log.$n" 2>&1
    ended=$?
    if [ "$n" = 0 ] && [ $ended != 0 ]; then
        echo "harms: a finding without a fault added"
        status=1
    elif [ "$n" != 0 ] && [ $ended = 0 ]; then
        echo "harms: fault $n is not reported"
        status=1
    fi
    [ -z "${HARMS_SHOWN:-}" ] || echo "$n: $(grep -m 1 -E '^FAILED CHECK|ERROR: AddressSanitizer' "$tmp/log.$n")"
    n=$((n + 1))
done
[ $status != 0 ] || echo "harms: $last faults added to the library, each reported"
exit $status
