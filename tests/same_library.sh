#!/bin/sh
# libgsym.a and libgsym_write.a have the same bytes wherever they are built: built here, and in a copy of the tree in
# another folder, which has none of what was built here, their SHA-256 is the same. In the copy each crate is checked
# once more over the proofs that rt keeps on this machine, a minute or two of processor time; where it keeps none, they
# are proved anew. Exit status 1 where one differs, 3 where there is no toolchain. RT is honoured.
set -u
cd "$(dirname "$0")/.." || exit 2
for tool in make tar sha256sum paste "${RT:-rt}"; do
    command -v "$tool" >/dev/null 2>&1 || { echo "tests/same_library: there is no '$tool' here: not tried"; exit 3; }
done
tmp=$(mktemp -d) || exit 2
trap 'rm -rf "$tmp"' EXIT
copy=$tmp/another/folder
fail() {
    [ ! -f "$tmp/log" ] || tail -n 20 "$tmp/log"
    echo "tests/same_library: $*"
    exit 1
}

# sum FOLDER: builds the libraries there
sum() {
    (cd "$1" && make RT="${RT:-rt}" libgsym.a target/libgsym_write.a) >"$tmp/log" 2>&1 ||
        fail "the libraries aren't built in $1"
    for library in libgsym.a target/libgsym_write.a; do sha256sum <"$1/$library" | cut -d' ' -f1; done | paste -sd' '
}

mkdir -p "$copy" || exit 2
# what the build reads: the crates without what was built, and what make and the pin of the kit need
tar -cf - --exclude='crates/*/out' crates.txt crates Makefile README.md include tools | tar -xf - -C "$copy" ||
    fail "no copy can be made"
here=$(sum .) || { echo "$here"; exit 1; }
there=$(sum "$copy") || { echo "$there"; exit 1; }
[ "$here" = "$there" ] || fail "built in another folder it is another: $here and $there"
echo "tests/same_library: libgsym.a and libgsym_write.a are the same in two folders, SHA-256 $here"
