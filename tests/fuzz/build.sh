#!/bin/sh
# Builds the fuzzing target: `build.sh [FOLDER]`, else target/fuzz. Proves and builds the library as hosts get it, and a
# second time, from the same proved code, with counters for libFuzzer and with AddressSanitizer, which a script for clang
# adds (tests/with_clang.sh). Writes to the folder:
#   fuzz         the target over the library with counters
#   fuzz-plain   the target over the library as hosts get it, for replaying inputs
#   seeds        the program that makes the first inputs
#   how          a line that says whether the library has counters
# Where the second build can't be had, fuzz is guided by the C side alone, and `how` says so. Exit status 3 where there
# is no clang with libFuzzer. CLANG is honoured.
set -u
cd "$(dirname "$0")/../.." || exit 2
here=tests/fuzz
clang=${CLANG:-clang}
out=${1:-target/fuzz}
library="libgsym.a target/libreport_c.a target/libgsym_write.a"
[ "$(uname -m)" = x86_64 ] || { echo "fuzz: not built, the library is for x86-64"; exit 3; }
command -v "$clang" >/dev/null 2>&1 || { echo "fuzz: not built, there is no '$clang' here"; exit 3; }
command -v rt >/dev/null 2>&1 || { echo "fuzz: not built, the toolchain's command 'rt' is not on the PATH"; exit 2; }
mkdir -p "$out" || exit 2
out=$(cd "$out" && pwd)
printf 'int LLVMFuzzerTestOneInput(const char *d, unsigned long n) { return d == 0 && n > 9; }\n' >"$out/probe.c"
"$clang" -fsanitize=fuzzer,address,undefined -o "$out/probe" "$out/probe.c" >"$out/log" 2>&1 ||
    { echo "fuzz: not built, '$clang' has no libFuzzer or no sanitizers"; exit 3; }
rm -f "$out/probe" "$out/probe.c"

# shellcheck disable=SC2086
make $library >"$out/log" 2>&1 || { tail -n 20 "$out/log"; echo "fuzz: the library isn't proved"; exit 1; }

# ---- the same library with counters

kit=$(command -v rt)
kit=${RATTLE_HOME:-$(dirname "$(dirname "$(readlink -f "$kit")")")}

# a script for clang: it reads the module, marks each function for AddressSanitizer, and compiles it with what rattle
# asks for and the instrumentation
with_counters() {
    cat >"$out/clang" <<EOF
#!/bin/sh
PATH=\${PATH:-/usr/bin:/bin}
for word in "\$@"; do
    shift
    case \$word in
    *.bc)
        '$kit/toolchain/bin/clang' --target=x86_64-unknown-linux-gnu --no-default-config -x ir "\$word" -S -emit-llvm \\
            -O0 -Xclang -disable-llvm-passes -o '$out/module.plain.ll' || exit 1
        sed 's/^\(define .*\) {\$/\1 sanitize_address {/' '$out/module.plain.ll' >'$out/module.ll' || exit 1
        set -- "\$@" '$out/module.ll'
        ;;
    *) set -- "\$@" "\$word" ;;
    esac
done
exec '$kit/toolchain/bin/clang' "\$@" -fsanitize-coverage=inline-8bit-counters,pc-table,trace-cmp -fsanitize=address
EOF
    sh tests/with_clang.sh "$out/clang" "$out/libgsym_counted.a" &&
        sh tests/with_clang.sh "$out/clang" "$out/libgsym_text_counted.a" gsym_text_c &&
        sh tests/with_clang.sh "$out/clang" "$out/libgsym_check_counted.a" gsym_check_c &&
        sh tests/with_clang.sh "$out/clang" "$out/libreport_counted.a" report_c &&
        sh tests/with_clang.sh "$out/clang" "$out/libgsym_write_counted.a" gsym_write_c
}

# built anew only where the library, this script or the kit is another
# shellcheck disable=SC2086
stamp=$(cat $library "$here/build.sh" tests/with_clang.sh "$kit/KIT-ID" 2>/dev/null | sha256sum)
if [ "$stamp" != "$(cat "$out/stamp" 2>/dev/null)" ] || [ ! -f "$out/libgsym_write_counted.a" ]; then
    rm -f "$out/libgsym_counted.a" "$out/libgsym_text_counted.a" "$out/libgsym_check_counted.a" \
        "$out/libreport_counted.a" "$out/libgsym_write_counted.a" "$out/stamp"
    with_counters >"$out/log" 2>&1 && echo "$stamp" >"$out/stamp"
    rm -f "$out/clang" "$out/module.ll" "$out/module.plain.ll"
fi

# ---- the target

flags="-std=c11 -g -O1 -Wall -Wextra -Werror -Iinclude"
checked="-fsanitize=address,undefined -fno-sanitize-recover=all"
target() {
    # shellcheck disable=SC2086
    "$clang" $flags $checked -fsanitize=fuzzer -o "$@" >"$out/log" 2>&1
}
how="the library has counters and AddressSanitizer; the C side has sanitizers and no counters"
over_counters() {
    [ -f "$out/libgsym_write_counted.a" ] || return 1
    # shellcheck disable=SC2086
    "$clang" $flags $checked -c -o "$out/target.o" $here/target.c >"$out/log" 2>&1 &&
        target "$out/fuzz" "$out/target.o" "$out/libgsym_counted.a" "$out/libgsym_text_counted.a" \
            "$out/libgsym_check_counted.a" "$out/libreport_counted.a" "$out/libgsym_write_counted.a" \
            "$kit/c/liblibc_c.a"
}
if ! over_counters; then
    tail -n 5 "$out/log"
    how="the library has no counters: libFuzzer is guided by the C side alone"
    # shellcheck disable=SC2086
    target "$out/fuzz" $here/target.c $library || { cat "$out/log"; echo "fuzz: target.c doesn't compile"; exit 1; }
fi
# shellcheck disable=SC2086
target "$out/fuzz-plain" $here/target.c $library || { cat "$out/log"; echo "fuzz: target.c doesn't compile"; exit 1; }
# shellcheck disable=SC2086
"$clang" $flags -Wno-unused-function -o "$out/seeds" $here/seeds.c >"$out/log" 2>&1 ||
    { cat "$out/log"; echo "fuzz: seeds.c doesn't compile"; exit 1; }
rm -f "$out/target.o"
echo "$how" >"$out/how"
echo "fuzz: built; $how"
