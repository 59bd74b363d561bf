#!/bin/sh
# Whether the Rattle toolchain on the PATH ($RT, else rt) is the kit that this repository is proved with: README.md
# pins it. Says nothing where it is; exit status 1, and a message, where it is another or there is none.
set -u
cd "$(dirname "$0")/.." || exit 2
rt=${RT:-rt}
fail() {
    echo "kit.sh: $*" >&2
    exit 1
}
command -v "$rt" >/dev/null 2>&1 || fail "the Rattle toolchain's command '$rt' is not on the PATH; without it, \
build over the library of the archive: make LIBGSYM=path/libgsym.a"
pinned=$(sed -n 's/^Kit: `\([^`]*\)`.*/\1/p' README.md)
[ -n "$pinned" ] || fail "README.md has no line that pins the kit"
found=$("$rt" version)
[ "$found" = "$pinned" ] || fail "this repository is proved with '$pinned' (README.md), and this machine has '$found': \
install that kit, or prove all anew with this one and change the pin"
