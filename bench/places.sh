#!/bin/sh
# Where a library's code lies in memory, and what it does to its time: `places.sh [PASSES [TREE..]]`. TREE is `.`, which
# it is if none is named, or another checkout with its libraries built. Each library is linked with 0, 16, 32 and 48
# bytes before its code, once as it was built, `tree1`, and once with each jump kept inside 32 bytes, `inside1`: as the
# kit's clang does it when it is told to, which it isn't for hosts. All of them check and look up in one process, in
# turn (places.c says what a line is). Then the jumps that end at or reach over a multiple of 32 (jumps.py). A machine
# that does something else meanwhile shows in `name` too, where no number is read. Needs cc, objcopy, xz, python3, the
# toolchain and the corpus (GSYM_CORPUS); answers 3 and says so where they are not there.
set -eu
cd "$(dirname "$0")/.."
passes=${1:-15}
case $passes in *[!0-9]*) echo "bench: '$passes' is no number of passes"; exit 2 ;; esac
[ $# = 0 ] || shift
[ $# -gt 0 ] || set -- .
[ "$(uname -m)" = x86_64 ] || { echo "bench: the library is for x86-64, so nothing was measured"; exit 3; }
corpus=${GSYM_CORPUS:-../shared/corpus}
[ -f "$corpus/vmlinux612.gsym.xz" ] || { echo "bench: no vmlinux612.gsym.xz at $corpus (set GSYM_CORPUS)"; exit 3; }
for tool in cc objcopy xz python3 rt; do
    command -v $tool >/dev/null 2>&1 || { echo "bench: no $tool here, nothing was measured"; exit 3; }
done
kit=$(command -v rt)
kit=${RATTLE_HOME:-$(dirname "$(dirname "$(readlink -f "$kit")")")}
tmp=$(mktemp -d)
trap 'rm -rf "$tmp"' EXIT
xz -dc "$corpus/vmlinux612.gsym.xz" >"$tmp/vmlinux612.gsym"

# A library's code four times: `link_four NAME` of NAME.gsym_c.o and NAME.gsym_check_c.o, whose sections begin at
# multiples of 16
objects=
link_four() {
    place=0
    for before in 0 16 32 48; do
        printf '.section .note.GNU-stack,"",@progbits\n.text\n.p2align 6\n.fill %s, 1, 0x90\n' $before >"$tmp/before.s"
        for call in c:lookup check_c:check; do
            cc -c -o "$tmp/$1.$place.${call#*:}.before.o" "$tmp/before.s"
            objcopy --redefine-sym "gsym_${call#*:}_2=$1_${call#*:}_$place" \
                --keep-global-symbol "$1_${call#*:}_$place" "$tmp/$1.gsym_${call%:*}.o" "$tmp/$1.$place.${call#*:}.o"
            objects="$objects $tmp/$1.$place.${call#*:}.before.o $tmp/$1.$place.${call#*:}.o"
        done
        place=$((place + 1))
    done
    echo "LIBRARY($1)" >>"$tmp/libraries.h"
}

cat >"$tmp/clang" <<END
#!/bin/sh
exec '$kit/toolchain/bin/clang' "\$@" -mbranches-within-32B-boundaries
END
i=0
for tree; do
    i=$((i + 1))
    [ "$tree" != . ] || make libgsym.a >"$tmp/log" 2>&1 || { tail -n 20 "$tmp/log"; exit 1; }
    for crate in gsym_c gsym_check_c; do
        ar p "$tree/libgsym.a" $crate.o >"$tmp/tree$i.$crate.o"
        sh "$tree/tests/with_clang.sh" "$tmp/clang" "$tmp/inside.a" $crate >"$tmp/log" 2>&1 ||
            { tail -n 20 "$tmp/log"; exit 1; }
        ar p "$tmp/inside.a" $crate.o >"$tmp/inside$i.$crate.o"
    done
    link_four tree$i
    link_four inside$i
done
# shellcheck disable=SC2086
cc -O2 -std=c11 -D_GNU_SOURCE -Wall -Wextra -Werror -Iinclude -I"$tmp" -o "$tmp/places" bench/places.c $objects

echo "$(date +%F), $(rt version)"
echo "$(uname -m), $(nproc --all) processors$(sed -n 's/^model name[^:]*: /, /p' /proc/cpuinfo | head -n 1)"
echo "file, what | library | 0, 16, 32 and 48 bytes before its code | their mean"
"$tmp/places" "$passes" "$tmp/vmlinux612.gsym" "$corpus/cpp-gcc.gsym" "$corpus/rs-calc.gsym"
echo
echo "function | jumps | that end at or reach over a multiple of 32 where it begins at one, and 16 after one"
for j in $(seq $i); do
    for crate in gsym_c gsym_check_c; do python3 bench/jumps.py tree$j "$tmp/tree$j.$crate.o"; done
done
