#!/bin/sh
# Another kit than the one that README.md pins, and none, are refused by make, run.sh and test.sh, and nothing is
# proved.
set -u
cd "$(dirname "$0")/.." || exit 2
tmp=$(mktemp -d) || exit 2
trap 'rm -rf "$tmp"' EXIT
fail() {
    cat "$tmp/log"
    echo "tests/kit: $*"
    exit 1
}
# an rt of another kit, which keeps what it was called with
cat >"$tmp/rt" <<END
#!/bin/sh
echo "\$*" >>"$tmp/calls"
echo "rattle-kit-0 logic 0"
END
chmod +x "$tmp/rt"
refused() { # WHAT MESSAGE COMMAND..
    what=$1
    message=$2
    shift 2
    rm -f "$tmp/calls"
    if "$@" >"$tmp/log" 2>&1; then
        fail "$what goes on"
    fi
    grep -qF "$message" "$tmp/log" || fail "$what doesn't say why"
    [ ! -f "$tmp/calls" ] || ! grep -qvx version "$tmp/calls" || fail "$what calls it all the same"
}
another="this machine has 'rattle-kit-0 logic 0'"
refused "make, with another kit," "$another" make -B RT="$tmp/rt" libgsym.a
refused "run.sh, with another kit," "$another" env PATH="$tmp:$PATH" sh run.sh
refused "test.sh, with another kit," "$another" env PATH="$tmp:$PATH" sh test.sh
refused "make, without a kit," "is not on the PATH" make -B RT="$tmp/none" libgsym.a
echo "tests/kit: another kit and none are refused by make, run.sh and test.sh"
