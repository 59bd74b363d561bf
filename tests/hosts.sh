#!/bin/sh
# What hosts get: builds the library and the tools by `make`, and runs the C tests (tests/c), the tests of
# the tools (tests/host), of the check of a whole file (tests/check), of reports (tests/report), of files that are
# written and files as text (tests/write), of which entry an address has (tests/runs), of torn numbers and such that are
# too wide (tests/numbers), of the differences to the Rust and LLVM (tests/differences), the archive and what is
# installed of it (tests/archive.sh), that the library is the same in another folder (tests/same_library.sh), the man
# pages (tests/man.sh), and the tests of the Rust binding (tests/rust.sh). Says in plain words what this machine has no
# compiler for. Exit status 1 where one fails.
set -u
cd "$(dirname "$0")/.." || exit 2
tmp=$(mktemp -d) || exit 2
trap 'rm -rf "$tmp"' EXIT
status=0
if command -v make >/dev/null 2>&1 && command -v "${CC:-cc}" >/dev/null 2>&1; then
    sh tests/c/run.sh || [ $? = 3 ] || status=1
    if make >"$tmp/make" 2>&1; then
        sh tests/host/run.sh ./gsym-addr2line || status=1
        sh tests/host/run.sh ./gsym addr2line || status=1
        sh tests/host/both.sh ./gsym ./gsym-addr2line || status=1
        sh tests/host/info.sh ./gsym || [ $? = 3 ] || status=1
        sh tests/check/run.sh ./gsym ./libgsym.so.0 || [ $? = 3 ] || status=1
        sh tests/report/run.sh ./report_main ./gsym || [ $? = 3 ] || status=1
        sh tests/write/run.sh ./gsym || [ $? = 3 ] || status=1
        sh tests/runs/run.sh ./libgsym.so.0 || [ $? = 3 ] || status=1
        sh tests/numbers/run.sh ./libgsym.so.0 || [ $? = 3 ] || status=1
        sh tests/differences/run.sh ./gsym-addr2line || [ $? = 3 ] || status=1
        sh tests/archive.sh || [ $? = 3 ] || status=1
        sh tests/same_library.sh || [ $? = 3 ] || status=1
    else
        tail -n 20 "$tmp/make"
        echo "tests/hosts: make failed"
        status=1
    fi
else
    echo "tests/hosts: no make or no C compiler here: the C face and the tool were not tried"
fi
if command -v make >/dev/null 2>&1; then
    sh tests/kit.sh || status=1
fi
sh tests/man.sh || [ $? = 3 ] || status=1
sh tests/rust.sh || [ $? = 3 ] || status=1
exit $status
