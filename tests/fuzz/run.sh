#!/bin/sh
# Fuzzes the library: `run.sh [SECONDS]`, else 60. Builds (build.sh), makes the first inputs from the small files of
# $GSYM_CORPUS (else ../shared/corpus) and the sample file, runs libFuzzer for so many seconds with a fixed seed
# ($FUZZ_SEED, else 1), then replays all inputs that it kept on the library as hosts get it. Prints executions, counters
# and findings; an input that failed stays in target/fuzz/findings. Exit status 1 where there is a finding, 3 where
# there is no clang with libFuzzer. One process, the least priority.
set -u
cd "$(dirname "$0")/../.." || exit 2
seconds=${1:-60}
seed=${FUZZ_SEED:-1}
out=target/fuzz
corpus=${GSYM_CORPUS:-../shared/corpus}
case $seconds in '' | *[!0-9]*) echo "usage: run.sh [SECONDS]"; exit 2 ;; esac
nice -n 19 sh tests/fuzz/build.sh "$out" || exit $?

rm -rf "$out/first" "$out/kept" "$out/findings"
mkdir -p "$out/first" "$out/kept" "$out/findings" || exit 2
set -- host/sample/connector.gsym
for file in "$corpus"/*.gsym; do
    [ -f "$file" ] && [ "$(wc -c <"$file")" -le 65536 ] && set -- "$@" "$file"
done
[ $# -gt 1 ] || echo "fuzz: no symbol files at '$corpus': the first inputs are of the sample file alone"
first=$("$out/seeds" "$out/first" "$@") || exit 2

limits="-max_len=70000 -timeout=5 -rss_limit_mb=2000 -detect_leaks=0"
# shellcheck disable=SC2086
nice -n 19 "$out/fuzz" "$out/kept" "$out/first" $limits -seed="$seed" -max_total_time="$seconds" -print_final_stats=1 \
    -dict=tests/fuzz/words.dict -artifact_prefix="$out/findings/" -print_coverage=1 >"$out/fuzz.log" 2>&1
status=$?
executed=$(sed -n 's/^stat::number_of_executed_units: *//p' "$out/fuzz.log")
of=$(sed -n 's/^INFO: Loaded .*(\([0-9]*\) inline 8-bit counters).*/\1/p' "$out/fuzz.log" | head -n 1)
began=$(sed -n 's/.*INITED cov: \([0-9]*\) .*/\1/p' "$out/fuzz.log")
hit=$(sed -n 's/.* cov: \([0-9]*\) ft: .*/\1/p' "$out/fuzz.log" | tail -n 1)
features=$(sed -n 's/.* cov: [0-9]* ft: \([0-9]*\) .*/\1/p' "$out/fuzz.log" | tail -n 1)
echo "fuzz: $(cat "$out/how")"
echo "fuzz: seed $seed, $seconds seconds, $first first inputs, ${executed:-no} executions;" \
    "${hit:-no} of ${of:-no} counters met (${began:-none} by the first inputs), ${features:-no} features," \
    "$(find "$out/kept" -type f | wc -l) inputs kept"
sed -n 's/^numbers:/fuzz:/p' "$out/fuzz.log"

# shellcheck disable=SC2086
if nice -n 19 "$out/fuzz-plain" $limits -runs=0 -artifact_prefix="$out/findings/" "$out/kept" "$out/first" \
    >"$out/plain.log" 2>&1; then
    echo "fuzz: the inputs kept and the first ones, replayed on the library as hosts get it: nothing failed"
else
    grep -E '^(FAILED CHECK|  |SUMMARY|==[0-9]+==ERROR)' "$out/plain.log" | head -n 8
    status=1
fi
found=$(find "$out/findings" -type f | wc -l)
if [ "$status" != 0 ] || [ "$found" != 0 ]; then
    grep -E '^(FAILED CHECK|  in |SUMMARY|==[0-9]+==ERROR)' "$out/fuzz.log" | head -n 8
    echo "fuzz: $found findings, in $out/findings (libFuzzer ended with status $status)"
    exit 1
fi
echo "fuzz: 0 findings"
