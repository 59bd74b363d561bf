#!/bin/sh
# Tests of gsym-addr2line and of `gsym addr2line`: `sh tests/host/run.sh WORD..`, where the words call the tool. The
# sample crash in every form of output, each option, each kind of trouble with its message and exit status, bytes that
# would steer a terminal (every one: steering.py), endless files, closed pipes, every torn prefix of the sample, and
# LLVM's answers on real files where they are there ($GSYM_CORPUS). With GSYM_LARGE=1 also a pipe above the limit. Exit
# status 1 where one fails.
#
# The two tools answer alike, and their messages begin with their names. They differ where `maps` says so:
# gsym-addr2line maps its file, gsym reads it whole, so that no cut file can end it, and it maps nothing that is above
# its limit.
set -u
cd "$(dirname "$0")/../.." || exit 2
called=$(basename "$1")
program=$1
case $called in gsym) maps=no ;; *) maps=yes ;; esac
# tool ARGUMENTS..: the tool, by the words that call it
words=$*
tool() {
    # shellcheck disable=SC2086 # one or several words
    $words "$@"
}
sample=host/sample/connector.gsym
corpus=${GSYM_CORPUS:-../shared/corpus}
tmp=$(mktemp -d) || exit 2
trap 'rm -rf "$tmp"' EXIT
checks=0
failed=0

# same NAME: standard input is what $tmp/out must hold
same() {
    checks=$((checks + 1))
    cat >"$tmp/want"
    cmp -s "$tmp/want" "$tmp/out" && return
    echo "tests/host: $1: expected"
    cat "$tmp/want"
    echo "and got"
    head -c 2000 "$tmp/out"
    failed=1
}

# status NAME EXPECTED GOT
status() {
    checks=$((checks + 1))
    [ "$2" = "$3" ] || { echo "tests/host: $1: exit status $3, not $2"; failed=1; }
}

tool -e $sample -afip 1155 0x1065 >"$tmp/out"
status "known addresses" 0 $?
same "one line a frame" <<'END'
0x0000000000001155: send_request at /src/connector/post.c:35
 (inlined by) post_order at /src/connector/post.c:18
 (inlined by) sync_orders at /src/connector/sync.c:44
0x0000000000001065: read_stock at /src/connector/sync.c:21
END
tool -e $sample -afi 10d0 >"$tmp/out"
same "a line for each part" <<'END'
0x00000000000010d0
post_order
/src/connector/post.c:12
sync_orders
/src/connector/sync.c:44
END
tool -e $sample 10d0 >"$tmp/out"
same "the position alone" <<'END'
/src/connector/post.c:12
END
tool -e $sample -f 10d0 >"$tmp/out"
same "the innermost function" <<'END'
post_order
/src/connector/post.c:12
END
printf '10d0 0xFFF\n11d5\n' | tool -e $sample -fp >"$tmp/out"
status "unknown addresses" 1 $?
same "addresses from standard input" <<'END'
post_order at /src/connector/post.c:12
?? ??:0
?? ??:0
END
tool -e $sample -ap fff 10d0 >"$tmp/out"
same "an unknown address without functions" <<'END'
0x0000000000000fff: ??:0
0x00000000000010d0: /src/connector/post.c:12
END
tool -e $sample -fsip 1155 >"$tmp/out"
same "files without their directories" <<'END'
send_request at post.c:35
 (inlined by) post_order at post.c:18
 (inlined by) sync_orders at sync.c:44
END
for word in -C --demangle --demangle=gnu-v3; do
    tool -e $sample -fp $word 1000 >"$tmp/out"
    status "$word" 0 $?
    same "$word" <<'END'
main at /src/connector/main.c:10
END
done
tool -e $sample -f --refusals fff 11d5 >"$tmp/out"
status "refused addresses" 1 $?
same "refusals by number and name" <<'END'
?1 no symbol covers the address
?1 no symbol covers the address
?6 the name of the symbol or of an inlined call doesn't read, or is not UTF-8
?6 the name of the symbol or of an inlined call doesn't read, or is not UTF-8
END
tool -e $sample --json 1155 fff >"$tmp/out"
same "JSON" <<'END'
{"address":"0x1155","number":0,"start":"0x10a0","size":256,"frames":[{"name":"send_request","directory":"/src/connector","file":"post.c","line":35},{"name":"post_order","directory":"/src/connector","file":"post.c","line":18},{"name":"sync_orders","directory":"/src/connector","file":"sync.c","line":44}]}
{"address":"0xfff","number":1,"refusal":"no symbol covers the address"}
END
cat $sample | tool -e /dev/stdin -f 1000 >"$tmp/out"
same "a file from a pipe" <<'END'
main
/src/connector/main.c:10
END
{ cat $sample; head -c 300000 /dev/zero; } | tool -e /dev/stdin -f 1000 >"$tmp/out"
same "a file from a pipe that goes on" <<'END'
main
/src/connector/main.c:10
END

# addresses of a running program: the base is subtracted first, and of a return address one; shown is what was given
tool -e $sample -afp --base 0x555500000000 5555000010d0 555500000fff 10d0 >"$tmp/out"
status "--base" 1 $?
same "--base" <<'END'
0x00005555000010d0: post_order at /src/connector/post.c:12
0x0000555500000fff: ?? ??:0
0x00000000000010d0: ?? ??:0
END
tool -e $sample -afp --base=5000 --return-addresses 60a0 6001 6000 5000 0 >"$tmp/out"
same "--return-addresses" <<'END'
0x00000000000060a0: read_stock at /src/connector/sync.c:25
0x0000000000006001: main at /src/connector/main.c:10
0x0000000000006000: ?? ??:0
0x0000000000005000: ?? ??:0
0x0000000000000000: ?? ??:0
END
tool -e $sample --json --base 5000 --return-addresses 6001 4fff >"$tmp/out"
same "--base in JSON" <<'END'
{"address":"0x6001","number":0,"start":"0x1000","size":96,"frames":[{"name":"main","directory":"/src/connector","file":"main.c","line":10}]}
{"address":"0x4fff","number":1,"refusal":"no symbol covers the address"}
END

# arguments from a file
printf -- "-f -e '%s'\n  \"10\"d0 1\\\\000\n" $sample >"$tmp/arguments"
tool "@$tmp/arguments" -p 1065 >"$tmp/out"
status "@FILE" 0 $?
same "@FILE" <<'END'
post_order at /src/connector/post.c:12
main at /src/connector/main.c:10
read_stock at /src/connector/sync.c:21
END
tool -e $sample "@$tmp/none" >"$tmp/out" 2>"$tmp/errors"
status "@FILE that is not there" 1 $?
for word in -h -H --help; do
    tool $word >"$tmp/out"
    status "$word" 0 $?
    checks=$((checks + 1))
    head -n 1 "$tmp/out" | grep -q '^usage: ' || { echo "tests/host: $word: no usage"; failed=1; }
done
version=$(sed -n 's/^#define GSYM_VERSION_[A-Z]* \([0-9]*\)$/\1/p' include/gsym.h | paste -sd.)
for word in -v -V --version; do
    tool $word >"$tmp/out"
    echo "$called $version" >"$tmp/version"
    same "$word" <"$tmp/version"
done

: >"$tmp/empty"
printf 'no symbols here' >"$tmp/other"
head -c 100 $sample >"$tmp/torn"
trouble() { # NAME EXPECTED-MESSAGE ARGUMENTS..
    name=$1
    message=$2
    shift 2
    tool "$@" >"$tmp/printed" 2>"$tmp/out"
    status "$name" 2 $?
    checks=$((checks + 1))
    grep -qF -e "$message" "$tmp/out" || { echo "tests/host: $name: no '$message' in: $(head -n 1 "$tmp/out")"; failed=1; }
    [ ! -s "$tmp/printed" ] || { echo "tests/host: $name: something was answered"; failed=1; }
}
trouble "no file" "No such file or directory" -e "$tmp/none" 1000
trouble "a folder" "Is a directory" -e "$tmp" 1000
trouble "an empty file" "the file is empty" -e "$tmp/empty" 1000
trouble "another file" "3, not a GSYM file" -e "$tmp/other" 1000
trouble "a torn file" "2, the file ends inside its header or a table" -e "$tmp/torn" 1000
trouble "no file named" "usage:" 1000
trouble "an unknown option" "usage:" -e $sample --frob 1000
trouble "endless arguments" "@/dev/zero: more than 16 MiB of arguments" -e $sample @/dev/zero
trouble "an option without its argument" "an option without its argument: '-e'" -e
trouble "a base that is no address" "--base wants an address, and this is none: 'zz'" -e $sample --base zz 1000
trouble "a bad option can't steer the terminal" "'--?[2J'" -e $sample "--$(printf '\033')[2J" 1000
trouble "a bad name can't steer the terminal" "no?ne?: No such" -e "$(printf '%s/no\033ne\342\200\256' "$tmp")" 1

# what is no symbol file, and what never ends
printf '\177ELF\002\001\001' >"$tmp/elf"
printf 'GSYM\000\001\010\024' >"$tmp/swapped"
trouble "an ELF file" "an ELF file; make the symbol file with llvm-gsymutil --convert" -e "$tmp/elf" 1000
trouble "the tool itself" "an ELF file; make the symbol file with llvm-gsymutil --convert" -e "$program" 1000
trouble "the other byte order" "refused: 3, a GSYM file of the other byte order" -e "$tmp/swapped" 1000
trouble "an endless file" "refused: 3, not a GSYM file" -e /dev/zero 1000
{ printf 'MYSG\002\000'; cat /dev/zero; } 2>"$tmp/broken" | {
    trouble "an endless pipe of another version" "refused: 4, a version other than 1" -e /dev/stdin 1000
    exit $failed
} || failed=1
checks=$((checks + 3))
if [ -n "${GSYM_LARGE-}" ]; then
    # takes 1 GiB of memory
    { printf 'MYSG\001\000'; cat /dev/zero; } 2>"$tmp/broken" | {
        trouble "an endless pipe that begins well" "more than 1 GiB$([ $maps = no ] || echo ", and it can't be mapped")" -e /dev/stdin 1000
        exit $failed
    } || failed=1
    checks=$((checks + 3))
fi
# files of /proc say that they have no bytes
[ ! -r /proc/self/cmdline ] || trouble "a file of /proc" "refused: 3, not a GSYM file" -e /proc/self/cmdline 1000

# a word that is no address: said, and never taken for an address that is not known
tool -e $sample zz 1000 >"$tmp/out" 2>"$tmp/errors"
status "no address" 1 $?
same "no address" <<'END'
??:0
/src/connector/main.c:10
END
tool -e $sample -af zz "" 0x 1000 >"$tmp/out" 2>"$tmp/errors"
same "no address under -a" <<'END'
??
??
??:0
??
??
??:0
??
??
??:0
0x0000000000001000
main
/src/connector/main.c:10
END
cp "$tmp/errors" "$tmp/out"
same "no address is said" <<END
$called: 'zz' is no address
$called: '' is no address
$called: '0x' is no address
END
tool -e $sample -afp zz 1000 >"$tmp/out" 2>"$tmp/errors"
same "no address under -p" <<'END'
??: ?? ??:0
0x0000000000001000: main at /src/connector/main.c:10
END
tool -e $sample -f --refusals zz >"$tmp/out" 2>"$tmp/errors"
same "no address under --refusals" <<'END'
?? 'zz' is no address
?? 'zz' is no address
END
tool -e $sample --json 'z"z' 11g >"$tmp/out" 2>"$tmp/errors"
status "no address in JSON" 1 $?
same "no address in JSON" <<'END'
{"address":null,"word":"z\"z","error":"no address"}
{"address":null,"word":"11g","error":"no address"}
END

# an answer longer than the tool's memory for it, between short ones
head -c 100000 /dev/zero | tr '\0' z >"$tmp/long"
{ echo 1000; cat "$tmp/long"; echo; echo 1065; } | tool -e $sample --refusals >"$tmp/out" 2>"$tmp/errors"
status "a long word" 1 $?
{
    echo "/src/connector/main.c:10"
    echo "?? '$(cat "$tmp/long")' is no address"
    echo "/src/connector/sync.c:21"
} >"$tmp/shown"
same "a long word" <"$tmp/shown"
echo "$called: '$(cat "$tmp/long")' is no address" >"$tmp/said"
cp "$tmp/errors" "$tmp/out"
same "a long word is said" <"$tmp/said"

# a zero byte in a line drops no word, and a word that is no address is answered as such
printf '1155\000 1065\n' | tool -e $sample -f >"$tmp/out" 2>"$tmp/errors"
status "a zero byte in a word" 1 $?
same "a zero byte in a word" <<'END'
??
??:0
read_stock
/src/connector/sync.c:21
END

# what steers a terminal or turns a line: C0, C1 as UTF-8 and as bytes, bidirectional marks; and what does not
printf '10\033[2J a\302\205b\302\240 \205\237\240 \342\200\252\342\200\256\342\200\257 ' >"$tmp/words"
printf '\342\201\246\342\201\251\342\201\252 \303\200\342\200\n' >>"$tmp/words"
tool -e $sample --refusals <"$tmp/words" >"$tmp/out" 2>"$tmp/errors"
{
    printf "?? '10?[2J' is no address\n?? 'a?b\302\240' is no address\n?? '??\240' is no address\n"
    printf "?? '??\342\200\257' is no address\n?? '??\342\201\252' is no address\n"
    printf "?? '\303\200\342?' is no address\n"
} >"$tmp/shown"
same "a bad word can't steer the terminal" <"$tmp/shown"
sed "s/^?? /$called: /" "$tmp/shown" >"$tmp/said"
cp "$tmp/errors" "$tmp/out"
same "a complaint can't steer the terminal" <"$tmp/said"
tool -e $sample --json <"$tmp/words" >"$tmp/out" 2>"$tmp/errors"
{
    printf '%s' '{"address":null,"word":"10\u001b[2J","error":"no address"}
{"address":null,"word":"a\u0085b'
    printf '\302\240'
    printf '%s' '","error":"no address"}
{"address":null,"word":"\ufffd\ufffd\ufffd","error":"no address"}
{"address":null,"word":"\u202a\u202e'
    printf '\342\200\257'
    printf '%s' '","error":"no address"}
{"address":null,"word":"\u2066\u2069'
    printf '\342\201\252'
    printf '%s' '","error":"no address"}
{"address":null,"word":"'
    printf '\303\200'
    printf '%s\n' '\ufffd\ufffd","error":"no address"}'
} >"$tmp/quoted"
same "JSON can't steer the terminal" <"$tmp/quoted"
# the same in the path of a file
LC_ALL=C sed "s/main\.c/ma$(printf '\302\233').c/; s/src.con/s\x9bc\/$(printf '\342\200\256')/" $sample >"$tmp/steering"
if [ "$(wc -c <"$tmp/steering")" = "$(wc -c <$sample)" ]; then
    tool -e "$tmp/steering" -f 1000 >"$tmp/out"
    same "a path can't steer the terminal" <<'END'
main
/s?c/?nector/ma?.c:10
END
fi
tool -e $sample 10000000000000001155 >"$tmp/out" 2>"$tmp/errors"
status "an address above 64 bits" 1 $?
tool -e $sample <&- >"$tmp/out" 2>"$tmp/errors"
status "a closed standard input" 2 $?
tool -e $sample <"$tmp" >"$tmp/out" 2>"$tmp/errors"
status "a folder as standard input" 2 $?
checks=$((checks + 1))
grep -qF "standard input: Is a directory" "$tmp/errors" || { echo "tests/host: a folder as standard input: no message"; failed=1; }
if [ -c /dev/full ]; then
    for word in --help --version; do
        tool $word >/dev/full 2>"$tmp/errors"
        status "$word to a full device" 2 $?
    done
fi

# a file that is cut: what was answered stands, and the rest is told where the file is mapped; where it was read whole
# all is answered
cp $sample "$tmp/cut"
{
    echo 1065
    sleep 1
    : >"$tmp/cut"
    echo 1155
} | tool -e "$tmp/cut" -fp >"$tmp/out" 2>"$tmp/errors"
cut=$?
if [ $maps = yes ]; then
    status "a file that is cut" 2 $cut
    same "a file that is cut" <<'END'
read_stock at /src/connector/sync.c:21
END
    cp "$tmp/errors" "$tmp/out"
    same "a file that is cut is told" <<END
$called: the file became shorter while it was read
END
else
    status "a file that is cut" 0 $cut
    same "a file that is cut" <<'END'
read_stock at /src/connector/sync.c:21
send_request at /src/connector/post.c:35
END
    cp "$tmp/errors" "$tmp/out"
    same "of a file that is cut nothing is told" </dev/null
fi

# whoever reads may stop at any time
i=0
while [ $i -lt 20000 ]; do echo 1155; i=$((i + 1)); done >"$tmp/many"
{ tool -e $sample -fi <"$tmp/many" 2>"$tmp/errors"; echo $? >"$tmp/status"; } | head -n 1 >"$tmp/out"
status "a closed pipe" 2 "$(cat "$tmp/status")"
checks=$((checks + 1))
[ ! -s "$tmp/errors" ] || { echo "tests/host: a closed pipe: $(head -n 1 "$tmp/errors")"; failed=1; }

# every torn prefix ends in an answer, a refusal or a clear error
size=$(wc -c <$sample)
cut=0
while [ $cut -lt "$size" ]; do
    head -c $cut $sample >"$tmp/torn"
    tool -e "$tmp/torn" -fi --refusals 1000 1065 1155 11d5 >"$tmp/out" 2>&1
    s=$?
    checks=$((checks + 1))
    [ $s -le 2 ] || { echo "tests/host: the first $cut bytes: exit status $s"; failed=1; }
    cut=$((cut + 1))
done
echo "tests/host: $checks checks of $words, $([ $failed = 0 ] && echo all well || echo some failed)"

if command -v python3 >/dev/null 2>&1; then
    python3 tests/host/steering.py $sample "$@" || failed=1
else
    echo "tests/host: no python3: not tried with every byte that steers a terminal"
fi

if [ -d "$corpus" ] && command -v python3 >/dev/null 2>&1; then
    python3 tests/host/corpus.py "$corpus" "$@" || failed=1
else
    echo "tests/host: no corpus of real files at $corpus (set GSYM_CORPUS) or no python3: not compared with LLVM's answers"
fi
exit $failed
