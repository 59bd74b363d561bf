#!/bin/sh
# The archive for hosts without the toolchain: `dist.sh NAME LIBRARY WRITER FILE..`, from `make dist`. Writes
# target/NAME.tar.gz, which has the two libraries, these files and SHA256SUMS of all of them, and
# target/NAME.tar.gz.sha256.
# The bytes follow from the files' bytes alone: names in order, no owner, no time, no name in the packing.
# docs/ARCHIVE.md tells a stranger how to check it.
set -eu
cd "$(dirname "$0")/.."
name=$1
library=$2
writer=$3
shift 3
[ -f "$writer" ] || { echo "tools/dist: there is no libgsym_write.a beside $library"; exit 2; }
LC_ALL=C
export LC_ALL
rm -rf "target/$name"
mkdir -p "target/$name"
for file in "$@"; do
    mkdir -p "target/$name/$(dirname "$file")"
    cp "$file" "target/$name/$file"
done
cp "$library" "target/$name/libgsym.a"
cp "$writer" "target/$name/libgsym_write.a"
(
    cd "target/$name"
    find . -type d -exec chmod 755 {} +
    find . -type f -exec chmod 644 {} +
    find . -type f ! -name SHA256SUMS | sed 's|^\./||' | sort | xargs sha256sum >../"$name.sums"
    mv ../"$name.sums" SHA256SUMS
    chmod 644 SHA256SUMS
)
tar -C target --sort=name --mtime=@0 --owner=0 --group=0 --numeric-owner --format=ustar -cf - "$name" |
    gzip -9n >"target/$name.tar.gz"
rm -rf "target/$name"
cd target
sha256sum "$name.tar.gz" >"$name.tar.gz.sha256"
cat "$name.tar.gz.sha256"
