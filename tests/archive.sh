#!/bin/sh
# The archive of `make dist`: packed twice, from two copies of this tree in other folders and at another time, it has
# the same bytes; SHA256SUMS in it holds; and from it alone, in a folder of its own with an empty environment and a
# PATH that has a C compiler, make and the tools that docs/ARCHIVE.md names, and no toolchain, all is built and
# installed: the tool answers, a program links with either library, and what is installed is what is wanted; what needs
# a checkout says so; each link of its pages leads to a page of it or to one that docs/ARCHIVE.md says is not in it.
# Exit status 1 where something fails, 3 where it can't be tried. LIBGSYM is honoured.
set -u
cd "$(dirname "$0")/.." || exit 2
cc=${CC:-cc}
for tool in "$cc" make tar gzip sha256sum; do
    command -v "$tool" >/dev/null 2>&1 || { echo "tests/archive: there is no '$tool' here, nothing was tried"; exit 3; }
done
library=${LIBGSYM:-libgsym.a}
tmp=$(mktemp -d) || exit 2
trap 'rm -rf "$tmp"' EXIT
fail() {
    [ ! -f "$tmp/log" ] || tail -n 20 "$tmp/log"
    echo "tests/archive: $*"
    exit 1
}

make LIBGSYM="$library" "$library" >"$tmp/log" 2>&1 || fail "the library isn't built"
make LIBGSYM="$library" dist >"$tmp/log" 2>&1 || fail "make dist failed"
name=$(sed -n 's/^[0-9a-f]*  \(.*\)\.tar\.gz$/\1/p' "$tmp/log")
[ -f "target/$name.tar.gz" ] || fail "make dist wrote no archive"
cp "target/$name.tar.gz" "target/$name.tar.gz.sha256" "$tmp/"
(cd "$tmp" && sha256sum -c "$name.tar.gz.sha256") >"$tmp/log" 2>&1 || fail "its SHA-256 is another"

# ---- once more, from a copy that has other times and rights, by another user's mask
mkdir "$tmp/copy"
tar xzf "$tmp/$name.tar.gz" -C "$tmp/copy"
mkdir "$tmp/copy/$name/tools"
cp tools/dist.sh "$tmp/copy/$name/tools/"
find "$tmp/copy" -type f -exec touch -d '2001-02-03' {} +
chmod -R go-rwx "$tmp/copy"
(umask 077 && cd "$tmp/copy/$name" && make dist) >"$tmp/log" 2>&1 || fail "make dist failed in a copy"
cmp "$tmp/$name.tar.gz" "$tmp/copy/$name/target/$name.tar.gz" >"$tmp/log" 2>&1 || fail "packed twice it is another"
rm -rf "$tmp/copy"

# ---- a root that has only what is needed
mkdir "$tmp/bin" "$tmp/build" "$tmp/home"
compiler=$(command -v "$cc")
for tool in sh make sed install ln mkdir cp rm cmp cat env tar gzip sha256sum; do
    ln -s "$(command -v $tool)" "$tmp/bin/$tool" 2>/dev/null || fail "there is no '$tool' here"
done
# a compiler finds its parts from where it stands
printf '#!%s\nPATH=/usr/bin:/bin exec %s "$@"\n' "$(command -v sh)" "$compiler" >"$tmp/bin/cc"
chmod +x "$tmp/bin/cc"
bare() {
    (cd "$tmp/build" && env -i PATH="$tmp/bin" HOME="$tmp/home" "$@") >"$tmp/log" 2>&1
}
bare tar xzf "$tmp/$name.tar.gz" || fail "it doesn't unpack"
mv "$tmp/build/$name"/* "$tmp/build/"
! bare rt version || fail "the toolchain is on the bare PATH"
bare sha256sum -c SHA256SUMS || fail "a file of it is another than SHA256SUMS says"
bare make || fail "make fails with nothing but the archive"
bare ./gsym-addr2line -e host/sample/connector.gsym -fp 1065 || fail "the tool fails"
[ "$(cat "$tmp/log")" = "read_stock at /src/connector/sync.c:21" ] || fail "the tool answers otherwise"
bare make install PREFIX=/usr DESTDIR="$tmp/root" || fail "make install fails with nothing but the archive"
for goal in dist check; do
    bare make $goal && fail "make $goal needs no checkout"
    grep -q "make $goal: this needs a checkout of the repository" "$tmp/log" ||
        fail "make $goal doesn't say what it needs"
done
for page in "$tmp"/build/docs/*.md; do
    for link in $(grep -o '](\([^)#]*\)[#)]' "$page" | sed 's/^](//; s/[#)]$//' | sort -u); do
        [ -f "$tmp/build/docs/$link" ] && continue
        # a page by its name, and a page of a folder by the folder
        case $link in ../*) what=$(echo "$link" | cut -d/ -f2) ;; *) what=$link ;; esac
        sed -n '/^In the repository, and not in the archive/,/^$/p' docs/ARCHIVE.md | tr -d '\`,' | tr ' ' '\n' |
            grep -qx "$what" || fail "$(basename "$page") links to $link, which docs/ARCHIVE.md doesn't name"
    done
done
# a library that stands elsewhere, and then what was linked with the other is made anew
mkdir "$tmp/elsewhere"
mv "$tmp/build/libgsym.a" "$tmp/elsewhere/"
bare make && fail "make needs no library"
bare make LIBGSYM="$tmp/elsewhere/libgsym.a" || fail "make LIBGSYM=.. fails"
grep -q "elsewhere/libgsym.a" "$tmp/log" || fail "make LIBGSYM=.. links nothing anew"
bare ./gsym-addr2line -e host/sample/connector.gsym -fp 1065 || fail "the tool fails with LIBGSYM=.."
version=${name#gsym-}
version=${version%%-*}
for file in bin/gsym-addr2line include/gsym.h include/gsym_write.h lib/libgsym.a lib/libgsym_write.a lib/libgsym.so \
    lib/libgsym.so.0 lib/pkgconfig/gsym.pc \
    share/man/man1/gsym-addr2line.1 share/man/man3/gsym.3 share/doc/gsym/LICENSE share/doc/gsym/NOTICE \
    share/doc/gsym/docs/PROMISES.md share/doc/gsym/docs/RULES.md share/doc/gsym/examples/handler.c; do
    [ -s "$tmp/root/usr/$file" ] || fail "make install puts no $file"
done
grep -q "^Version: $version$" "$tmp/root/usr/lib/pkgconfig/gsym.pc" || fail "gsym.pc has another version"

# ---- a program, by what is installed
cat >"$tmp/build/program.c" <<'END'
#include <gsym.h>
int main(void)
{
    return gsym_lookup(0, 0, 0, 0, 0, 0).number != GSYM_TOO_FEW_BYTES || gsym_check(0, 0).number != GSYM_TOO_FEW_BYTES;
}
END
root=$tmp/root/usr
bare cc -I"$root/include" -o static program.c "$root/lib/libgsym.a" || fail "a program doesn't link with libgsym.a"
bare ./static || fail "a program with libgsym.a answers otherwise"
bare cc -I"$root/include" -o shared program.c -L"$root/lib" -lgsym || fail "a program doesn't link with -lgsym"
bare env LD_LIBRARY_PATH="$root/lib" ./shared || fail "a program with libgsym.so answers otherwise"
bare ./shared && fail "a program by -lgsym needs no shared library"
bare cc -I"$root/include" -o handler "$root/share/doc/gsym/examples/handler.c" "$root/lib/libgsym.a" ||
    fail "the example doesn't compile"
cat >"$tmp/build/writer.c" <<'END'
#include <gsym.h>
#include <gsym_write.h>
int main(void)
{
    gsym_entry function = {0x1000, 0, 32, 1};
    gsym_file none = {0, 0};
    const uint8_t strings[] = "\0main";
    uint8_t out[128];
    gsym_written w = gsym_write(&function, 1, 0, 0, 0, 0, &none, 1, strings, sizeof strings, out, sizeof out);
    return w.number != 0 || gsym_lookup(out, w.len, 0x101f, 0, 0, 0).addr != 0x1000;
}
END
bare cc -I"$root/include" -o writer writer.c "$root/lib/libgsym_write.a" "$root/lib/libgsym.a" ||
    fail "a program doesn't link with libgsym_write.a"
bare ./writer || fail "a program with libgsym_write.a answers otherwise"
bare make uninstall PREFIX=/usr DESTDIR="$tmp/root" || fail "make uninstall fails"
left=$(find "$tmp/root" -type f -o -type l)
[ -z "$left" ] || fail "make uninstall leaves $left"
echo "tests/archive: $name.tar.gz is packed alike twice; it builds, installs and links with a C compiler and make alone"
