#!/bin/sh
# Cut symbol files: proves and builds the library, compiles torn.c and runs it on the small files of $GSYM_CORPUS (else
# ../shared/corpus) and the sample file. Prints one line. Exit status 1 where a check failed, 3 where there are no files
# or there is no C compiler. CC and CFLAGS are honoured.
set -u
cd "$(dirname "$0")/../.." || exit 2
cc=${CC:-cc}
corpus=${GSYM_CORPUS:-../shared/corpus}
library=libgsym.a
command -v "$cc" >/dev/null 2>&1 || { echo "torn: not run, this machine has no C compiler '$cc'"; exit 3; }
machine=$(uname -m)
[ "$machine" = x86_64 ] || { echo "torn: not run, the library is for x86-64 and this machine is $machine"; exit 3; }
set --
for name in c-clang c-gcc far8 icf-merged tiny1 deep rs-calc cpp-gcc; do
    [ -f "$corpus/$name.gsym" ] && set -- "$@" "$corpus/$name.gsym"
done
[ $# -gt 0 ] || { echo "torn: not run, there are no symbol files at '$corpus' (\$GSYM_CORPUS)"; exit 3; }

tmp=$(mktemp -d) || exit 2
trap 'rm -rf "$tmp"' EXIT
make $library >"$tmp/log" 2>&1 || { tail -n 20 "$tmp/log"; echo "torn: the library isn't proved"; exit 1; }
# shellcheck disable=SC2086
"$cc" -std=c11 ${CFLAGS:--O2} -Wall -Wextra -Werror -Wno-unused-function -Iinclude -o "$tmp/torn" tests/fuzz/torn.c \
    "$library" >"$tmp/log" 2>&1 || { cat "$tmp/log"; echo "torn: torn.c doesn't compile"; exit 1; }
"$tmp/torn" "$@" host/sample/connector.gsym >"$tmp/log" 2>&1
status=$?
tail -n 5 "$tmp/log"
[ "$status" = 0 ] || { echo "torn: a check failed, or the library touched what it must not (status $status)"; exit 1; }
