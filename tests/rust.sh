#!/bin/sh
# The binding for Rust: its tests, and with the feature `write` too where libgsym_write.a is there; that its package
# has all it needs and is built by itself, from a copy that has nothing else; where it looks for the libraries, and that
# it says so in one error where there is none; that it compiles without std and without a heap; and by the oldest rustc
# that it names, where $RUSTC_OLD is one, and its cargo $CARGO_OLD. Prints one line; exit status 3 where there is no
# cargo or no library. LIBGSYM_DIR may name the folder with libgsym.a and, there or in target/ below it,
# libgsym_write.a.
set -u
cd "$(dirname "$0")/.." || exit 2
top=$PWD
command -v cargo >/dev/null 2>&1 || { echo "bindings/rust: no cargo here, the Rust binding was not tried"; exit 3; }
dir=${LIBGSYM_DIR:-$top}
[ -f "$dir/libgsym.a" ] || { echo "bindings/rust: no library at $dir, the Rust binding was not tried"; exit 3; }
tmp=$(mktemp -d) || exit 2
trap 'rm -rf "$tmp"' EXIT
fail() {
    tail -n 30 "$tmp/log"
    echo "bindings/rust: $*"
    exit 1
}
export CARGO_TARGET_DIR="$top/target/cargo" CARGO_NET_OFFLINE=true
cd bindings/rust || exit 2

GSYM_LIB_DIR=$dir cargo test --quiet >"$tmp/log" 2>&1 || fail "a test failed"
groups=$(grep -c '^test result: ok' "$tmp/log")
# the library that writes
writer=
for place in "$dir" "$dir/target"; do
    [ -n "$writer" ] || [ ! -f "$place/libgsym_write.a" ] || writer=$place/libgsym_write.a
done
writes="writing was not tried: there is no libgsym_write.a"
if [ -n "$writer" ]; then
    GSYM_LIB_DIR=$dir cargo test --quiet --features write >"$tmp/log" 2>&1 || fail "a test with 'write' failed"
    writes="$(grep -c '^test result: ok' "$tmp/log") with writing"
fi
for features in "" "--features alloc" ${writer:+"--features write"}; do
    # shellcheck disable=SC2086
    GSYM_LIB_DIR=$dir cargo build --quiet --no-default-features $features >"$tmp/log" 2>&1 ||
        fail "no build with '$features'"
    [ ! -s "$tmp/log" ] || fail "warnings with '$features'"
done

# the package, from a copy of what cargo packs
GSYM_LIB_DIR=$dir cargo package --quiet --allow-dirty >"$tmp/log" 2>&1 || fail "cargo package doesn't verify"
version=$(sed -n 's/^version = "\(.*\)"$/\1/p' Cargo.toml)
mkdir "$tmp/alone"
tar xzf "$CARGO_TARGET_DIR/package/gsym-$version.crate" -C "$tmp/alone" || fail "cargo package wrote nothing"
cd "$tmp/alone/gsym-$version" || exit 2
for file in README.md BLAZESYM.md LICENSE NOTICE build.rs tests/face.rs tests/write.rs tests/connector.gsym; do
    [ -s "$file" ] || fail "the package has no $file"
done
# copies, since a package has its files in its own folder
for file in LICENSE NOTICE host/sample/connector.gsym; do
    copy=$(basename "$file")
    [ "$copy" != connector.gsym ] || copy=tests/$copy
    cmp -s "$copy" "$top/$file" || fail "$copy of the package is another than $file"
done
CARGO_TARGET_DIR=$tmp/its GSYM_LIB_DIR=$dir cargo test --quiet >"$tmp/log" 2>&1 || fail "a test of the package failed"

# where it looks: a relative folder, pkg-config, nothing
mkdir lib
cp "$dir/libgsym.a" lib/
CARGO_TARGET_DIR=$tmp/relative GSYM_LIB_DIR=lib cargo test --quiet --test face >"$tmp/log" 2>&1 ||
    fail "a relative GSYM_LIB_DIR doesn't do"
mkdir src/below
(cd src/below && CARGO_TARGET_DIR=$tmp/relative GSYM_LIB_DIR=../../lib cargo build --quiet) >"$tmp/log" 2>&1 ||
    fail "a GSYM_LIB_DIR relative to where cargo is called doesn't do"
if [ -n "$writer" ]; then
    ! CARGO_TARGET_DIR=$tmp/relative GSYM_LIB_DIR=lib cargo build --quiet --features write >"$tmp/log" 2>&1 ||
        fail "it builds with the feature 'write' and no libgsym_write.a"
    grep -q 'gsym: there is no libgsym_write.a at .*lib, which the feature `write` needs' "$tmp/log" ||
        fail "no clear error without libgsym_write.a"
    cp "$writer" lib/
    CARGO_TARGET_DIR=$tmp/relative GSYM_LIB_DIR=lib cargo test --quiet --features write --test write >"$tmp/log" 2>&1 ||
        fail "it doesn't find libgsym_write.a beside libgsym.a"
fi
if command -v pkg-config >/dev/null 2>&1; then
    sed -e "s|@LIBDIR@|$PWD/lib|; s|@PREFIX@|$PWD|; s|@INCLUDEDIR@|$PWD|; s|@VERSION@|$version|" "$top/gsym.pc.in" \
        >lib/gsym.pc
    CARGO_TARGET_DIR=$tmp/found PKG_CONFIG_PATH=$PWD/lib cargo test --quiet --test face >"$tmp/log" 2>&1 ||
        fail "it doesn't find the library by pkg-config"
fi
if CARGO_TARGET_DIR=$tmp/none PKG_CONFIG=false cargo build --quiet >"$tmp/log" 2>&1; then
    fail "it builds with no library"
fi
grep -q 'gsym: pkg-config knows no gsym, and GSYM_LIB_DIR is not set' "$tmp/log" || fail "no clear error without it"
if CARGO_TARGET_DIR=$tmp/none GSYM_LIB_DIR=nowhere cargo build --quiet >"$tmp/log" 2>&1; then
    fail "it builds with no library in GSYM_LIB_DIR"
fi
grep -q 'there is no libgsym.a and no libgsym.so in GSYM_LIB_DIR, nowhere' "$tmp/log" ||
    fail "no clear error for GSYM_LIB_DIR"
! grep -q panicked "$tmp/log" || fail "the build script panics"

# a library of another version, and one of another layout
said=
if command -v "${CC:-cc}" >/dev/null 2>&1; then
    cd "$top" || exit 2
    for layout in same other; do
        flag=
        [ $layout = same ] || flag=-DOTHER_LAYOUT
        mkdir "$tmp/$layout"
        # shellcheck disable=SC2086
        "${CC:-cc}" -O1 -Iinclude $flag -c -o "$tmp/$layout/other.o" tests/rust/other.c >"$tmp/log" 2>&1 ||
            fail "tests/rust/other.c doesn't compile"
    done
    rustc --edition 2021 --crate-type rlib --crate-name gsym --cfg 'feature="alloc"' --cfg 'feature="std"' \
        -o "$tmp/libgsym.rlib" bindings/rust/src/lib.rs >"$tmp/log" 2>&1 || fail "rustc doesn't compile it"
    with() {
        rustc --edition 2021 --extern "gsym=$tmp/libgsym.rlib" -C "link-arg=$tmp/$1/other.o" -o "$tmp/other_$1" \
            tests/rust/other.rs >"$tmp/log" 2>&1
    }
    with same || fail "tests/rust/other.rs doesn't compile"
    "$tmp/other_same" >"$tmp/log" 2>&1 || fail "with a library of another version"
    ! with other || fail "it links with a library of another layout"
    grep -q 'undefined .*gsym_lookup_2' "$tmp/log" || fail "it doesn't link with another layout, for another reason"
    rustc --edition 2021 --crate-type rlib --crate-name gsym -C panic=abort -o "$tmp/libgsym.rlib" \
        bindings/rust/src/lib.rs >"$tmp/log" 2>&1 || fail "rustc doesn't compile it without std"
    rustc --edition 2021 -C panic=abort --extern "gsym=$tmp/libgsym.rlib" -C "link-arg=$dir/libgsym.a" \
        -C link-arg=-lc -o "$tmp/nostd" tests/rust/nostd.rs >"$tmp/log" 2>&1 ||
        fail "a program without std doesn't link"
    "$tmp/nostd" || fail "a program without std answers otherwise"
    said="another version and another layout, "
    cd "$tmp/alone/gsym-$version" || exit 2
fi

# the oldest rustc
old=${RUSTC_OLD:-}
before=$said
said="rustc 1.63 was not tried (RUSTC_OLD)"
if [ -n "$old" ]; then
    said=$($old --version)
    for features in "" "--cfg feature=\"alloc\"" "--cfg feature=\"alloc\" --cfg feature=\"write\"" \
        "--cfg feature=\"alloc\" --cfg feature=\"std\" --cfg feature=\"write\"" \
        "--cfg feature=\"alloc\" --cfg feature=\"std\""; do
        # shellcheck disable=SC2086
        $old --edition 2021 --crate-type rlib --crate-name gsym $features -o "$tmp/libgsym.rlib" src/lib.rs \
            >"$tmp/log" 2>&1 || fail "$said doesn't compile it with '$features'"
    done
    $old --edition 2021 --crate-name build_script -o "$tmp/build" build.rs >"$tmp/log" 2>&1 || fail "$said: build.rs"
    echo 'fn main() { std::process::exit((gsym::version() != gsym::VERSION) as i32) }' >"$tmp/main.rs"
    $old --edition 2021 -C "link-arg=$dir/libgsym.a" --extern "gsym=$tmp/libgsym.rlib" -o "$tmp/main" "$tmp/main.rs" \
        >"$tmp/log" 2>&1 && "$tmp/main" >"$tmp/log" 2>&1 || fail "$said: a program fails"
    if [ -n "${CARGO_OLD-}" ]; then
        CARGO_TARGET_DIR=$tmp/old RUSTC=$old GSYM_LIB_DIR=$dir "$CARGO_OLD" test --quiet --lib --tests \
            >"$tmp/log" 2>&1 ||
            fail "$said with $($CARGO_OLD --version): a test failed"
        said="$said, $($CARGO_OLD --version)"
    fi
fi
echo "bindings/rust: $groups groups of tests, $writes, the package alone, no std, the library found in four ways;" \
    "$before$said"
