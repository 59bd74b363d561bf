#!/bin/sh
# `info.sh GSYM`: `gsym info` tells the header and the tables of the sample, as text and in JSON, and a build id or that
# there is none; a file that is refused is told by number and name, and an option of `gsym addr2line` alone as none of
# its own, with status 2. A command is a word that is no option's value; none, and another, are told, with status 2.
# Exit status 1 where it does not.
set -u
cd "$(dirname "$0")/../.." || exit 2
gsym=$1
sample=host/sample/connector.gsym
tmp=$(mktemp -d) || exit 2
trap 'rm -rf "$tmp"' EXIT
checks=0
failed=0
command -v python3 >/dev/null 2>&1 || { echo "tests/host/info: no python3: not tried"; exit 3; }

# same NAME: standard input is what $tmp/out must hold
same() {
    checks=$((checks + 1))
    cat >"$tmp/want"
    diff "$tmp/want" "$tmp/out" && return
    echo "tests/host/info: $1: expected (<) and got (>)"
    failed=1
}

# trouble MESSAGE ARGUMENTS..: status 2, and this on standard error
trouble() {
    checks=$((checks + 1))
    message=$1
    shift
    "$gsym" "$@" >"$tmp/out" 2>"$tmp/errors"
    [ $? = 2 ] && [ ! -s "$tmp/out" ] && grep -qF -e "$message" "$tmp/errors" && return
    echo "tests/host/info: $*: no '$message' with status 2"
    failed=1
}

# the sample with four bytes as its UUID
python3 - $sample "$tmp/named" <<'END'
import sys
file = bytearray(open(sys.argv[1], "rb").read())
file[7] = 4
file[28:32] = bytes.fromhex("de00beef")
open(sys.argv[2], "wb").write(file)
END
"$gsym" info "$tmp/named" >"$tmp/out" || failed=1
same "as text" <<'END'
version            1
base address       0x1000
entry count        5
offset size        2
file count         4
build id           de00beef
address table      10 bytes at 48
data offset table  20 bytes at 60
file table         32 bytes at 84
string table       103 bytes at 116
file size          454 bytes
END
"$gsym" info "$tmp/named" --json >"$tmp/out" || failed=1
same "in JSON" <<'END'
{"version":1,"base_address":"0x1000","entry_count":5,"offset_size":2,"file_count":4,"build_id":"de00beef","address_table":{"place":48,"size":10},"data_offset_table":{"place":60,"size":20},"file_table":{"place":84,"size":32},"string_table":{"place":116,"size":103},"file_size":454}
END
"$gsym" info $sample | sed -n '/^build id/p' >"$tmp/out"
same "no build id" <<'END'
build id           none
END
"$gsym" info $sample --json | grep -o '"build_id":[^,]*' >"$tmp/out"
same "no build id, in JSON" <<'END'
"build_id":""
END
# a word is no command while an option wants its value
for words in "-e $sample addr2line 1065" "addr2line -e $sample 1065" "--base 0 --exe=$sample -- addr2line 1065"; do
    # shellcheck disable=SC2086 # several words
    "$gsym" $words >"$tmp/out" || failed=1
    same "$words" <<'END'
/src/connector/sync.c:21
END
done
printf 'MYSG\002\000' >"$tmp/version"
head -c 100 $sample >"$tmp/torn"
trouble "refused: 2, the file ends inside its header or a table" info "$tmp/torn"
trouble "refused: 3, not a GSYM file, or one of the other byte order" info /dev/zero
trouble "refused: 4, a version other than 1" info "$tmp/version"
trouble "No such file or directory" info "$tmp/none"
# options of `gsym addr2line`, wherever they stand
for option in "-e x" "--exe x" --exe=x "--base 1000" --base=1000; do
    # shellcheck disable=SC2086 # an option and its value
    trouble "gsym info has no such option: '${option%% *}'" info $option $sample
done
for option in -a --addresses -f --functions -i --inlines -p --pretty --pretty-print -s --basenames -C --demangle \
    --demangle=gnu --return-addresses --refusals; do
    trouble "gsym info has no such option: '$option'" info "$option" $sample
    trouble "gsym info has no such option: '$option'" "$option" info --json $sample
    trouble "usage: " info $sample "$option"
done
trouble "gsym info has no such option: '-f'" info -fa $sample
# misused MESSAGE ARGUMENTS..: what is wrong, and then the usage
misused() {
    trouble "$@"
    shift
    trouble "usage: " "$@"
}
misused "a command is missing"
misused "no such command: 'frob'" frob $sample
misused "no such command: '1065'" -e $sample 1065
misused "no such command: ''" "" addr2line -e $sample 1065
misused "-e FILE is missing" addr2line 1065
misused "FILE is missing" info
misused "gsym info takes one FILE alone" info $sample $sample
[ $failed = 0 ] && echo "tests/host/info: $checks checks"
exit $failed
