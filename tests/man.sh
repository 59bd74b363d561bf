#!/bin/sh
# The man pages render without a warning, at 80 columns and at 200, by what man and groff of this machine say. Exit
# status 3 where there is neither.
set -u
cd "$(dirname "$0")/.." || exit 2
said=
for page in man/*.[1-9]; do
    if command -v man >/dev/null 2>&1; then
        said=$said$(for width in 80 200; do MANWIDTH=$width man --warnings=w -E UTF-8 -l "$page" 2>&1 >/dev/null; done)
    fi
    if command -v groff >/dev/null 2>&1; then
        said=$said$(groff -ww -man -Tutf8 -z "$page" 2>&1)
    fi
done
command -v man >/dev/null 2>&1 || command -v groff >/dev/null 2>&1 || {
    echo "tests/man: there is neither man nor groff here, the pages were not rendered"
    exit 3
}
[ -z "$said" ] || { echo "$said"; echo "tests/man: a page has warnings"; exit 1; }
echo "tests/man: $(ls man/*.[1-9] | wc -l) pages without a warning"
