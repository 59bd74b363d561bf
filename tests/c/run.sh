#!/bin/sh
# The C host test: proves and builds the libraries by `make`, compiles face.c as C and, where there is a C++ compiler,
# as C++, stack.c, write.c and the example of a crash handler, and runs them; the handler on a stack of just what
# include/gsym.h asks for. What the archives and the shared library export, and what they take from elsewhere; that a
# program of the header before doesn't link. face.c and write.c once more with sanitizers, where the compiler has them,
# face.c with the shared library. Prints a line of each library; the exit status is 3 where there is nothing to compile
# with. CC, CXX, CFLAGS, LIBGSYM and LIBGSYM_WRITE are honoured.
set -u
cd "$(dirname "$0")/../.." || exit 2
cc=${CC:-cc}
cxx=${CXX:-c++}
flags="${CFLAGS:--O2} -Wall -Wextra -Werror -Iinclude"
library=${LIBGSYM:-libgsym.a}
writer=${LIBGSYM_WRITE:-target/libgsym_write.a}
command -v "$cc" >/dev/null 2>&1 || { echo "tests/c: not run, this machine has no C compiler '$cc'"; exit 3; }
command -v make >/dev/null 2>&1 || { echo "tests/c: not run, this machine has no 'make'"; exit 3; }
machine=$(uname -m)
[ "$machine" = x86_64 ] || { echo "tests/c: not run, the library is for x86-64 and this machine is $machine"; exit 3; }

tmp=$(mktemp -d) || exit 2
trap 'rm -rf "$tmp"' EXIT
fail() {
    cat "$tmp/log"
    echo "tests/c: $*"
    exit 1
}

make LIBGSYM="$library" "$library" libgsym.so.0 >"$tmp/all" 2>&1
status=$?
tail -n 20 "$tmp/all" >"$tmp/log"
[ "$status" = 0 ] || fail "the library isn't proved, or can't be shared"
# shellcheck disable=SC2086
"$cc" -std=c11 $flags -o "$tmp/face" tests/c/face.c "$library" >"$tmp/log" 2>&1 || fail "face.c doesn't compile as C"
# shellcheck disable=SC2086
"$cc" -std=c11 $flags -pthread -o "$tmp/stack" tests/c/stack.c "$library" >"$tmp/log" 2>&1 ||
    fail "stack.c doesn't compile"
"$tmp/face" >"$tmp/log" 2>&1 || fail "face.c, as C, failed"
said=$(tail -n 1 "$tmp/log")
as=C
if command -v "$cxx" >/dev/null 2>&1; then
    # shellcheck disable=SC2086
    "$cxx" -x c++ -std=c++11 $flags -c -o "$tmp/face.o" tests/c/face.c >"$tmp/log" 2>&1 &&
        "$cxx" -o "$tmp/face" "$tmp/face.o" "$library" >>"$tmp/log" 2>&1 || fail "face.c doesn't compile as C++"
    "$tmp/face" >"$tmp/log" 2>&1 || fail "face.c, as C++, failed"
    as="C and C++"
fi
# shellcheck disable=SC2086
if "$cc" -std=c11 $flags -fsanitize=undefined,address -fno-sanitize-recover=all -o "$tmp/face" tests/c/face.c \
    "$library" >"$tmp/log" 2>&1; then
    "$tmp/face" >"$tmp/log" 2>&1 || fail "face.c, with sanitizers, failed"
    as="$as, with sanitizers too,"
fi
"$tmp/stack" >"$tmp/log" 2>&1 || fail "stack.c failed"
stack=$(tail -n 1 "$tmp/log")

# ---- a crash handler on a stack of just what the header asks for
died=
# shellcheck disable=SC2086
"$cc" -std=c11 $flags -Wl,-z,now -o "$tmp/handler" examples/handler.c "$library" >"$tmp/log" 2>&1 ||
    fail "examples/handler.c doesn't compile"
crash() { # ARGUMENTS..: what the handler says, in $tmp/log
    { "$tmp/handler" "$@"; echo $? >"$tmp/status"; } 2>"$tmp/said"
    # the shell says too that it was killed
    sed '/^Segmentation fault/d' "$tmp/said" >"$tmp/log"
    [ "$(cat "$tmp/status")" = 139 ] || fail "examples/handler.c did not die of the signal"
}
handled() { # FILE ADDRESS: what the handler says of it must be standard input
    cat >"$tmp/want"
    crash "$@"
    cmp -s "$tmp/want" "$tmp/log" || fail "examples/handler.c said otherwise of $2"
}
handled host/sample/connector.gsym 1155 <<'END'
died in
  send_request at /src/connector/post.c:35
  post_order at /src/connector/post.c:18
  sync_orders at /src/connector/sync.c:44
END
handled host/sample/connector.gsym fff <<'END'
died, and the symbol file has no answer: no symbol covers the address
END
# the deepest tree, and one that is too deep, which takes the most stack
"$tmp/stack" 64 "$tmp/deep" && "$tmp/stack" 65 "$tmp/deeper" || fail "stack.c writes no file"
{
    echo "died in"
    echo "  mid at /src/a.c:12"
    i=64
    while [ $i -gt 1 ]; do echo "  mid at /src/a.c:$i"; i=$((i - 1)); done
} >"$tmp/frames"
handled "$tmp/deep" 1005 <"$tmp/frames"
handled "$tmp/deeper" 1005 <<'END'
died, and the symbol file has no answer: inlined calls on more than 64 levels
END
# a symbol whose position is not known
handled "$tmp/deep" 1100 <<'END'
died in
  plain at ??:?
END
# where it died itself, at no address of ours: by a file that counts from that function on, whose directory is empty
if command -v nm >/dev/null 2>&1; then
    for flag in "" -no-pie; do
        # shellcheck disable=SC2086
        "$cc" -std=c11 $flags $flag -Wl,-z,now -o "$tmp/handler" examples/handler.c "$library" >"$tmp/log" 2>&1 ||
            { died="$died, not linked with $flag"; continue; }
        "$tmp/stack" 1 "$tmp/own" "$(nm "$tmp/handler" | sed -n 's/^\([0-9a-f]*\) [Tt] lose_order$/\1/p')" ||
            fail "stack.c writes no file"
        crash "$tmp/own"
        # a compiler may put the instruction within the block's eight bytes, which have another name, or behind them
        sed -e 's/^  mid at/  main at/' -e 's/^  main at a\.c:[1-9][0-9]*$/  main at a.c:LINE/' "$tmp/log" >"$tmp/own"
        printf 'died in\n  main at a.c:LINE\n' | cmp -s - "$tmp/own" ||
            fail "examples/handler.c did not say where it died ($flag)"
        died="$died, a crash of its own${flag:+ with $flag}"
    done
else
    died=", no crash of its own: there is no nm"
fi

# ---- names: a call with records carries the layout, and nothing else is there for hosts
layout=$(sed -n 's/^#define GSYM_LAYOUT \([0-9]*\)$/\1/p' include/gsym.h)
sort >"$tmp/want" <<END
gsym_block_frames_$layout
gsym_check_$layout
gsym_lookup_$layout
gsym_answer_text_$layout
gsym_next_word_$layout
gsym_address_of_$layout
gsym_shown_text
gsym_refusal_text
gsym_version
END
if command -v nm >/dev/null 2>&1; then
    nm -D --defined-only libgsym.so.0 | awk '$2 ~ /^[TDBVW]$/ { sub(/@.*/, "", $3); print $3 }' | sort >"$tmp/log"
    cmp -s "$tmp/want" "$tmp/log" || fail "libgsym.so.0 exports otherwise"
    nm "$library" 2>/dev/null | awk '$2 == "T" && $3 ~ /^gsym_/ { print $3 }' | sort >"$tmp/log"
    cmp -s "$tmp/want" "$tmp/log" || fail "$library has other names for hosts"
    nm -u "$library" 2>/dev/null | awk '$1 == "U" { print $2 }' | sort -u >"$tmp/log"
    [ "$(cat "$tmp/log")" = memset ] ||
        fail "$library takes otherwise from elsewhere than gsym.h says"
fi
"$cc" -std=c11 -c -o "$tmp/old.o" tests/c/old.c >"$tmp/log" 2>&1 || fail "old.c doesn't compile"
for with in "$library" ./libgsym.so.0; do
    ! "$cc" -o "$tmp/old" "$tmp/old.o" "$with" >"$tmp/log" 2>&1 || fail "a program of an older header links with $with"
    grep -q 'gsym_lookup' "$tmp/log" || fail "a program of the header before doesn't link with $with for another reason"
done

# ---- the shared library, by the name that a program asks for
if command -v readelf >/dev/null 2>&1; then
    major=$(sed -n 's/^#define GSYM_VERSION_MAJOR \([0-9]*\)$/\1/p' include/gsym.h)
    soname=$(readelf -d libgsym.so.0 | sed -n 's/.*(SONAME).*\[\(.*\)\]/\1/p')
    echo "$soname" >"$tmp/log"
    [ "$soname" = "libgsym.so.$major.$layout" ] || fail "libgsym.so.0 has another soname"
    readelf -d libgsym.so.0 >"$tmp/log"
    grep -q 'BIND_NOW' "$tmp/log" || fail "libgsym.so.0 is bound at first calls, on the caller's stack"
    cp libgsym.so.0 "$tmp/$soname"
    # shellcheck disable=SC2086
    "$cc" -std=c11 $flags -o "$tmp/face" tests/c/face.c "$tmp/$soname" >"$tmp/log" 2>&1 ||
        fail "face.c doesn't link with the shared library"
    LD_LIBRARY_PATH=$tmp "$tmp/face" >"$tmp/log" 2>&1 || fail "face.c, with the shared library, failed"
    as="$as and with the shared library"
fi

# ---- writing, by a library of its own
[ "$writer" != target/libgsym_write.a ] || make "$writer" >"$tmp/all" 2>&1 ||
    { tail -n 20 "$tmp/all" >"$tmp/log"; fail "the library that writes isn't proved"; }
wraps=-Wl,--wrap=malloc,--wrap=free
# shellcheck disable=SC2086
"$cc" -std=c11 $flags -pthread $wraps -o "$tmp/write" tests/c/write.c "$writer" >"$tmp/log" 2>&1 ||
    fail "write.c doesn't compile"
"$tmp/write" >"$tmp/log" 2>&1 || fail "write.c failed"
wrote=$(tail -n 1 "$tmp/log")
# shellcheck disable=SC2086
if "$cc" -std=c11 $flags -pthread $wraps -fsanitize=undefined,address -fno-sanitize-recover=all -o "$tmp/write" \
    tests/c/write.c "$writer" >"$tmp/log" 2>&1; then
    "$tmp/write" >"$tmp/log" 2>&1 || fail "write.c, with sanitizers, failed"
    wrote="$wrote, with sanitizers too"
fi
if command -v "$cxx" >/dev/null 2>&1; then
    printf '%s\n' '#include "gsym.h"' '#include "gsym_write.h"' \
        'int main() { return gsym_write(0, 0, 0, 0, 0, 0, 0, 0, 0, 0, 0, 0).number != GSYM_WRITE_TOO_LITTLE_ROOM; }' \
        >"$tmp/both.cpp"
    # shellcheck disable=SC2086
    "$cxx" -std=c++11 $flags -o "$tmp/both" "$tmp/both.cpp" "$library" "$writer" >"$tmp/log" 2>&1 ||
        fail "gsym_write.h doesn't compile as C++"
    "$tmp/both" || fail "a writer answers otherwise from C++"
fi
if command -v nm >/dev/null 2>&1; then
    nm "$writer" 2>/dev/null | awk '$2 == "T" && $3 ~ /^gsym_/ { print $3 }' >"$tmp/log"
    layout=$(sed -n 's/^#define GSYM_WRITE_LAYOUT \([0-9]*\)$/\1/p' include/gsym_write.h)
    [ "$(cat "$tmp/log")" = "gsym_write_$layout" ] ||
        fail "$writer has other names for hosts"
    nm "$writer" 2>/dev/null | awk '$1 == "U" { print $2 } $2 == "T" { print $3 }' | grep -v '^gsym_\|^rattle_' |
        sort -u >"$tmp/log"
    [ "$(tr '\n' ' ' <"$tmp/log")" = "free malloc memcpy memmove memset realloc " ] ||
        fail "$writer takes otherwise from elsewhere than gsym_write.h says"
fi
echo "tests/c: as $as $said; $stack; a crash handler$died"
echo "tests/c: $wrote"
