#!/bin/sh
# Shows that the comparison sees faults on this side too: each line of harmed.txt is a fault in the compiled Rattle
# code, and the random files of compare.sh must report a difference within a minute. Faulty Rattle isn't proved, so it
# isn't built; the faults are put into the LLVM text of the proved library, one at a time. `harmed.sh WORDS` tries only
# those whose lines have the words. Prints what was seen, and how soon; exit status 1 where a fault was not, or where a
# place of harmed.txt isn't in the text, since another toolchain may write it otherwise. Needs what compare.sh needs,
# python3 and the toolchain's own clang; answers 3 and says so where they are not there.
set -eu
cd "$(dirname "$0")/../.."
here=tests/oracle
words=${1:-}
[ "$(uname -m)" = x86_64 ] || { echo "harmed: the library is for x86-64, so no fault was tried"; exit 3; }
for tool in rustc python3 rt; do
    command -v $tool >/dev/null 2>&1 || { echo "harmed: there is no '$tool' here, so no fault was tried"; exit 3; }
done
kit=$(command -v rt)
kit=${RATTLE_HOME:-$(dirname "$(dirname "$(readlink -f "$kit")")")}
for tool in clang llvm-ar; do
    [ -x "$kit/toolchain/bin/$tool" ] ||
        { echo "harmed: the toolchain has no '$tool' of its own, so no fault was tried"; exit 3; }
done
tmp=$(mktemp -d)
trap 'rm -rf "$tmp"' EXIT
sh $here/build.sh "$tmp" || exit $?
sh $here/library.sh "$tmp"

# ---- the library's LLVM text: it is built with a script for clang that writes the text as well

cat >"$tmp/clang" <<END
#!/bin/sh
for word in "\$@"; do
    case \$word in
    *.bc)
        '$kit/toolchain/bin/clang' --target=x86_64-unknown-linux-gnu --no-default-config -x ir "\$word" -S -emit-llvm \\
            -O0 -Xclang -disable-llvm-passes -o '$tmp/as_built.ll' || exit 1
        ;;
    esac
done
exec '$kit/toolchain/bin/clang' "\$@"
END
sh tests/with_clang.sh "$tmp/clang" "$tmp/as_built.a" >"$tmp/log" 2>&1 ||
    { tail -n 20 "$tmp/log"; echo "harmed: the library isn't built"; exit 1; }
# of the library's objects the one of gsym_c, which is compared; the others stay as they are
ar=$kit/toolchain/bin/llvm-ar
"$ar" p "$tmp/as_built.a" gsym_c.o >"$tmp/as_built.o"
for object in gsym_c gsym_text_c gsym_check_c; do "$ar" p libgsym.a $object.o >"$tmp/$object.o"; done
cmp "$tmp/as_built.o" "$tmp/gsym_c.o" || { echo "harmed: this is another library than hosts get"; exit 1; }
[ -f "$tmp/as_built.ll" ] || { echo "harmed: this toolchain hands its clang no module, so no fault was tried"; exit 1; }
# The text without the promises that no sum wraps and no place lies outside: a fault is to give a wrong answer, not one
# that the compiler may choose.
sed 's/ nuw / /g; s/ nsw / /g; s/ inbounds / /g' "$tmp/as_built.ll" >"$tmp/module.ll"

# ---- the comparison over a module

compare_with() {
    "$kit/toolchain/bin/clang" --target=x86_64-unknown-linux-gnu -march=x86-64 --no-default-config -fPIC -O1 -c \
        -x ir "$1" -o "$tmp/module.o" || return 1
    rm -f "$tmp/libgsym.a" "$tmp/compare"
    "$ar" rcs "$tmp/libgsym.a" "$tmp/module.o" "$tmp/gsym_text_c.o" "$tmp/gsym_check_c.o" || return 1
    rustc --edition 2021 -C opt-level=1 -C incremental="$tmp/steps" -L "$tmp" --extern "oracle=$tmp/liboracle.rlib" \
        --extern "gsym=$tmp/libgsym.rlib" -l static=gsym -l static=reader_c -o "$tmp/compare" $here/compare/main.rs
}

compare_with "$tmp/module.ll"
"$tmp/compare" files 7 1000000 >"$tmp/said" ||
    { head -c 2000 "$tmp/said"; echo "harmed: a difference without a fault"; exit 1; }
echo "without a fault: $(head -n 1 "$tmp/said")"

# ---- one fault at a time

# Writes the module with the fault of a line of harmed.txt.
harm() {
    python3 - "$tmp/module.ll" "$1" "$tmp/harmed.ll" <<'PY'
import re, sys
words, function, old, new, *which = (part.strip() for part in sys.argv[2].split(" | "))
nth, of = (int(n) for n in which[0].split(" of ")) if which else (1, 1)
text = open(sys.argv[1]).read()
other = "another toolchain writes other text, so this line of harmed.txt must be made anew"
body = re.search(r'^define [^\n]*@"?' + re.escape(function) + r'"?\([^\n]*\n(.*?)^\}', text, re.M | re.S)
if body is None:
    sys.exit(f"harmed: no function {function} for '{words}': {other}")
place = re.escape(old).replace("%_", r"(%\w+)")
found = list(re.finditer(r"(?<![\w.])" + place + r"(?![\w.])", body.group(1)))
if len(found) != of:
    sys.exit(f"harmed: '{old}' stands {len(found)} times in {function}, and {of} was expected, for '{words}': {other}")
hit = found[nth - 1]
put = re.sub(r"%(\d)", lambda n: hit.group(int(n.group(1))), new)
at = body.start(1)
open(sys.argv[3], "w").write(text[: at + hit.start()] + put + text[at + hit.end() :])
PY
}

# More and more lookups, for a minute in all: whether a difference is told, and the verdict in words.
look() {
    start=$(date +%s)
    for lookups in 1000 10000 100000 1000000 10000000 100000000; do
        left=$((60 - $(date +%s) + start))
        [ $left -gt 0 ] || break
        ended=0
        timeout $left "$tmp/compare" files 7 $lookups >"$tmp/said" 2>&1 || ended=$?
        if grep -q "differs:" "$tmp/said"; then
            verdict="seen in $(($(date +%s) - start)) s, within $lookups lookups"
            return 0
        fi
        [ $ended = 0 ] || [ $ended = 124 ] || { verdict="NOT SEEN (the comparison ended with $ended)"; return 1; }
    done
    verdict="NOT SEEN"
    return 1
}

seen=0
tried=0
grep -v -e '^#' -e '^$' $here/harmed.txt | grep -F -e "$words" >"$tmp/list" ||
    { echo "harmed: no fault has '$words'"; exit 1; }
while IFS= read -r line; do
    harm "$line"
    compare_with "$tmp/harmed.ll" </dev/null || { echo "harmed: not built: $line"; exit 1; }
    tried=$((tried + 1))
    if look </dev/null; then
        seen=$((seen + 1))
    fi
    echo "$verdict: ${line%% | *}"
done <"$tmp/list"
echo "harmed: $seen of $tried faults seen"
[ $seen = $tried ]
