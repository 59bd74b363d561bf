#!/bin/sh
# The archive in a root that has only /usr of this machine, and of that no /usr/local: no toolchain, no home, no
# environment. It is unpacked, checked, built and installed there. For root, since it mounts, in a name space of its own:
# `sh tests/root.sh`. Exit status 1 where something fails, 3 where this machine lets no one make such a root. LIBGSYM
# is honoured.
set -u
cd "$(dirname "$0")/.." || exit 2
[ "$(id -u)" = 0 ] && unshare --mount --propagation private true 2>/dev/null ||
    { echo "tests/root: no root of one's own can be made here"; exit 3; }
root=$(mktemp -d) || exit 2
# never across a mount
trap 'rm -rf --one-file-system "$root"' EXIT
make LIBGSYM="${LIBGSYM:-libgsym.a}" dist >"$root/log" 2>&1 || { tail -n 5 "$root/log"; echo "tests/root: make dist failed"; exit 1; }
mkdir -p "$root/usr" "$root/tmp" "$root/build" "$root/dev" "$root/etc"
for folder in bin sbin lib lib64; do
    [ ! -L "/$folder" ] || ln -s "$(readlink "/$folder")" "$root/$folder"
done
[ ! -d /etc/alternatives ] || cp -r /etc/alternatives "$root/etc/"
cp target/gsym-*-x86_64-linux.tar.gz "$root/build/"
: >"$root/dev/null"
unshare --mount --propagation private sh -eu -c '
    mount --bind /usr "$1/usr"
    mount -o remount,ro,bind "$1/usr"
    mount -t tmpfs none "$1/usr/local"
    mount --bind /dev/null "$1/dev/null"
    exec chroot "$1" /usr/bin/env -i PATH=/usr/bin /bin/sh -eu -c "
        cd /build
        tar xzf *.tar.gz
        cd gsym-*/
        ! command -v rt
        sha256sum -c --quiet SHA256SUMS
        make
        ./gsym-addr2line -e host/sample/connector.gsym -fp 1065
        make install PREFIX=/usr DESTDIR=/tmp/to
        test -f /tmp/to/usr/share/doc/gsym/LICENSE"' sh "$root" >"$root/log" 2>&1 ||
    { tail -n 20 "$root/log"; echo "tests/root: it fails in a bare root"; exit 1; }
grep -q '^read_stock at /src/connector/sync.c:21$' "$root/log" ||
    { echo "tests/root: the tool answers otherwise"; exit 1; }
echo "tests/root: the archive is built, answers and is installed in a root of its own"
