#!/bin/sh
# One wording of refusals and of findings, one version and one layout. The words of crates/gsym_types (`#[error("..")]`)
# stand for the same number in include/gsym.h (its enum and gsym_refusal_name), in the Rust binding (its text and its
# page), in gsym-addr2line(1) and in docs/RULES.md ("Refusal numbers"), with the names of the enum where they are given;
# README.md cites RULES, and gsym(1) the other page. So do the words of what a check finds beside refusals, of
# crates/gsym_verify, in include/gsym.h (its enum and gsym_finding_name), in the binding (its text and its page), in
# gsym(1) and in docs/RULES.md ("Checking a file"). The version of include/gsym.h is that of gsym_c, of gsym_tool, of
# the binding and of the man pages, its date that of these, and its layout that of the exports of gsym_c, gsym_text_c
# and gsym_check_c, of the shared library and of the binding. What refuses a file that is to be written has one wording
# in docs/RULES.md ("Writing a file") and include/gsym_write.h, whose layout is that of the export of gsym_write_c and
# of the binding. Prints what is otherwise; 1 if anything is.
set -u
cd "$(dirname "$0")/.." || exit 2
tmp=$(mktemp -d) || exit 2
trap 'rm -rf "$tmp"' EXIT
bad=0

# a line for each refusal: number, name in capitals, words, parted by tabs
awk '
    /^pub enum Refusal / { open = 1; next }
    open && /^}/ { exit }
    open && match($0, /#\[error\("[^"]*"\)\]/) { words = substr($0, RSTART + 9, RLENGTH - 12); next }
    open && match($0, /[A-Z][A-Za-z]*,/) {
        name = substr($0, RSTART, RLENGTH - 1)
        gsub(/[A-Z]/, "_&", name)
        printf "%d\t%s\t%s\n", ++n, toupper(substr(name, 2)), words
    }' crates/gsym_types/src/lib.rt >"$tmp/words"
count=$(wc -l <"$tmp/words")
[ "$count" = 15 ] || { echo "wording: crates/gsym_types has $count refusals with words, and 15 are told of"; exit 1; }
# likewise for each finding that is no refusal, with the number that `number` gives it
awk '
    function snake(name) { gsub(/[A-Z]/, "_&", name); return toupper(substr(name, 2)) }
    /#\[error\("/ { words = match($0, /#\[error\("[^"{}]*"\)\]/) ? substr($0, RSTART + 9, RLENGTH - 12) : ""; next }
    words != "" && /^    [A-Z][A-Za-z]*,$/ { said[substr($1, 1, length($1) - 1)] = words; words = "" }
    /^ *(Fault|Finding)::[A-Za-z]* => [0-9]*,$/ {
        name = $1
        sub(/.*::/, "", name)
        printf "%d\t%s\t%s\n", $3, snake(name), said[name]
    }' crates/gsym_verify/src/finding.rt | sort -n >"$tmp/findings"
findings=$(wc -l <"$tmp/findings")
[ "$findings" = 5 ] || { echo "wording: crates/gsym_verify has $findings findings, and 5 are told of"; exit 1; }
cat "$tmp/words" "$tmp/findings" >"$tmp/all"
# the tool prints them inside JSON's quotes
! cut -f3 "$tmp/all" | grep -n '[\\"]' || { echo "wording: a quote or a backslash in the words"; bad=1; }

# same WHERE [LIST]: what was found there must be the list above, else that of the refusals. No pipe ends here: it would
# set `bad` in a shell of its own.
same() {
    if ! diff "$tmp/${2:-words}" "$tmp/found" >"$tmp/diff"; then
        echo "wording: $1 says otherwise than crates/gsym_types and crates/gsym_verify (<):"
        grep '^[<>]' "$tmp/diff"
        bad=1
    fi
}

sed -n 's|^    GSYM_\([A-Z_]*\) = \([0-9][0-9]*\),\{0,1\}  *\/\* \(.*\) \*\/$|\2\t\1\t\3|p' include/gsym.h >"$tmp/found"
same "the enums of include/gsym.h" all
awk '
    /gsym_refusal_name\(uint32_t number\)/ { open = 1 }
    open && /^}/ { exit }
    open && match($0, /"[^"]*"/) { print n++ "\t" substr($0, RSTART + 1, RLENGTH - 2) }' include/gsym.h |
    sed 1d | awk -F '\t' 'NR == FNR { name[$1] = $2; next } { print $1 "\t" name[$1] "\t" $2 }' "$tmp/words" - >"$tmp/found"
same "gsym_refusal_name of include/gsym.h"
# lines of number and words, parted by tabs: with the names that a list has for the numbers
named() { awk -F '\t' 'NR == FNR { name[$1] = $2; next } { print $1 "\t" name[$1] "\t" $2 }' "$tmp/$1" -; }
awk '
    /gsym_finding_name\(uint32_t number\)/ { open = 1 }
    open && /^}/ { exit }
    open && match($0, /^        "[^"]*",$/) { print 20 + n++ "\t" substr($0, 10, RLENGTH - 11) }' include/gsym.h |
    named findings >"$tmp/found"
same "gsym_finding_name of include/gsym.h" findings

# the binding: the words above each variant begin with a capital and end with a full stop
awk '
    function snake(name) { gsub(/[A-Z]/, "_&", name); return toupper(substr(name, 2)) }
    /^    \/\/\/ / { line = substr($0, 9) }
    /^pub enum Refusal / { open = 1 }
    open && /^}/ { exit }
    open && /^    [A-Z][A-Za-z]*,$/ {
        print ++n "\t" snake(substr($1, 1, length($1) - 1)) "\t" tolower(substr(line, 1, 1)) substr(line, 2, length(line) - 2)
    }
' bindings/rust/src/refusal.rs >"$tmp/found"
same "the page of bindings/rust"
awk '
    function snake(name) { gsub(/[A-Z]/, "_&", name); return toupper(substr(name, 2)) }
    /Refusal::[A-Za-z]* => "/ {
        name = $1; sub(/Refusal::/, "", name)
        match($0, /"[^"]*"/)
        print ++n "\t" snake(name) "\t" substr($0, RSTART + 1, RLENGTH - 2)
    }' bindings/rust/src/refusal.rs >"$tmp/found"
same "the text of bindings/rust"

# the same of its findings: first their numbers, then the page and the text by these
awk '
    /^ *(Fault|Finding)::[A-Za-z]* => [0-9]*,$/ {
        name = $1
        sub(/.*::/, "", name)
        print $3 + 0 "\t" name
    }' bindings/rust/src/finding.rs | sort -n >"$tmp/numbers"
by_number() { # lines of name and words, parted by tabs: by their numbers, as the lists have them
    awk -F '\t' '
        function snake(name) { gsub(/[A-Z]/, "_&", name); return toupper(substr(name, 2)) }
        NR == FNR { number[$2] = $1; next }
        { print number[$1] "\t" snake($1) "\t" $2 }' "$tmp/numbers" - | sort -n
}
awk '
    /^    \/\/\/ / { line = substr($0, 9) }
    /^pub enum (Fault|Finding) / { open = 1 }
    /^}/ { open = 0 }
    open && /^    [A-Z][A-Za-z]*,$/ {
        print substr($1, 1, length($1) - 1) "\t" tolower(substr(line, 1, 1)) substr(line, 2, length(line) - 2)
    }' bindings/rust/src/finding.rs | by_number >"$tmp/found"
same "the page of the findings in bindings/rust" findings
awk '
    /^ *(Fault::[A-Za-z]* => "|Finding::[A-Za-z]* => f\.write_str\(")/ {
        name = $1
        sub(/.*::/, "", name)
        match($0, /"[^"]*"/)
        print name "\t" substr($0, RSTART + 1, RLENGTH - 2)
    }' bindings/rust/src/finding.rs | by_number >"$tmp/found"
same "the text of the findings in bindings/rust" findings

# pages: rows of tables that begin with a number, in the section of the refusals
page_rows() { # PAGE: number and words
    sed -n '/^\.SH REFUSALS/,/^\.SH EXIT/s/^ *\([0-9][0-9]*\)  \(.*\)$/\1\t\2/p' "$1"
}
page_rows man/gsym-addr2line.1 |
    awk -F '\t' 'NR == FNR { name[$1] = $2; next } { print $1 "\t" name[$1] "\t" $2 }' "$tmp/words" - >"$tmp/found"
same man/gsym-addr2line.1
sed -n '/^\.SH FINDINGS/,/^\.SH REFUSALS/s/^ *\([0-9][0-9]*\)  \(.*\)$/\1\t\2/p' man/gsym.1 | sed 's/\\-/-/g' |
    awk -F '\t' 'NR == FNR { name[$1] = $2; next } { print $1 "\t" name[$1] "\t" $2 }' "$tmp/findings" - >"$tmp/found"
same man/gsym.1 findings
[ -z "$(page_rows man/gsym.1)" ] || { echo "wording: gsym(1) has refusals, which stand in gsym-addr2line(1)"; bad=1; }
sed -n '/^\.SH REFUSALS/,/^\.SH EXIT/p' man/gsym.1 | grep -q '^\.BR gsym\\-addr2line (1)' ||
    { echo "wording: gsym(1) doesn't cite the refusals"; bad=1; }
rows() { # FILE [SECTION]: number, and the other cells
    awk -v section="## ${2:-Refusal numbers}" '/^## / { open = $0 == section } open && /^\| *[0-9]+ *\|/' "$1" |
        sed 's/^| *//; s/ *| */\t/g'
}
[ -z "$(rows README.md)" ] || { echo "wording: README.md has a table of refusals, which stands in docs/RULES.md"; bad=1; }
grep -q 'docs/RULES.md#refusal-numbers' README.md || { echo "wording: README.md doesn't cite the refusals"; bad=1; }
# in RULES one cell of the row
rows docs/RULES.md | awk -F '\t' 'NR == FNR { name[$1] = $2; words[$1] = $3; next }
    $1 > 0 { said = $2; for (i = 2; i <= NF; i++) if ($i == words[$1]) said = $i; print $1 "\t" name[$1] "\t" said }' \
    "$tmp/words" - >"$tmp/found"
same "docs/RULES.md"
# where it says "as a refusal's" there are no words of its own
rows docs/RULES.md 'Checking a file' | awk -F '\t' '$2 != "as a refusal'"'"'s" { print $1 "\t" $2 }' | named findings \
    >"$tmp/found"
same "docs/RULES.md, \"Checking a file\"," findings

# ---- the version
part() { sed -n "s/^#define GSYM_VERSION_$1 \([0-9]*\)\$/\1/p" include/gsym.h; }
version=$(part MAJOR).$(part MINOR).$(part PATCH)
number=$(($(part MAJOR) * 10000 + $(part MINOR) * 100 + $(part PATCH)))
says() { # WHERE WHAT WANTED
    [ "$2" = "$3" ] || { echo "wording: $1 has version '$2', and include/gsym.h has $3"; bad=1; }
}
says crates/gsym_c "$(sed -n 's/^const VERSION: u32 = \([0-9_]*\);$/\1/p' crates/gsym_c/src/lib.rt)" "$number"
tool=$(sed -n 's/^const VERSION: &str = "gsym \(.*\)\\n";$/\1/p' crates/gsym_tool/src/main.rt)
says crates/gsym_tool "$tool" "$version"
says bindings/rust/Cargo.toml "$(sed -n 's/^version = "\(.*\)"$/\1/p' bindings/rust/Cargo.toml)" "$version"
says bindings/rust/Cargo.lock "$(sed -n '/^name = "gsym"$/{n;s/^version = "\(.*\)"$/\1/p;}' bindings/rust/Cargo.lock)" "$version"
says bindings/rust "$(sed -n 's/^pub const VERSION: u32 = \([0-9]*\);$/\1/p' bindings/rust/src/library.rs)" "$number"
dated=$(sed -n 's/^ \* Version [0-9.]* of \([0-9-]*\),.*/\1/p' include/gsym.h)
[ -n "$dated" ] || { echo "wording: include/gsym.h has no date"; bad=1; }
for page in man/gsym-addr2line.1 man/gsym.1 man/gsym.3; do
    says "$page" "$(sed -n 's/^\.TH .*"gsym \([0-9.]*\)".*/\1/p' "$page")" "$version"
    says "$page" "$(sed -n 's/^\.TH [A-Z0-9-]* [0-9] \([0-9-]*\) .*/\1/p' "$page")" "$dated"
done

# ---- the layout
layout=$(sed -n 's/^#define GSYM_LAYOUT \([0-9]*\)$/\1/p' include/gsym.h)
sed -n 's/^#define \(gsym_[a-z_]*\) \(gsym_[a-z_0-9]*\)$/\1 \2/p' include/gsym.h >"$tmp/mapped"
while read -r plain linked; do
    [ "$linked" = "${plain}_$layout" ] || { echo "wording: include/gsym.h maps $plain to $linked"; bad=1; }
    for where in 'crates/gsym_c/src/*.rt crates/gsym_text_c/src/*.rt crates/gsym_check_c/src/*.rt' host/gsym.map \
        bindings/rust/src/raw.rs; do
        # the binding has the calls with records and the check, and no texts
        case $where:$plain in
        bindings/*:gsym_lookup | bindings/*:gsym_block_frames | bindings/*:gsym_check) ;;
        bindings/*) continue ;;
        esac
        # shellcheck disable=SC2086
        cat $where | grep -q "[ \"]$linked[(;\"]" || { echo "wording: $where has no $linked"; bad=1; }
    done
done <"$tmp/mapped"
[ -s "$tmp/mapped" ] || { echo "wording: include/gsym.h maps no call to its layout"; bad=1; }
grep -q "^LIBGSYM_$layout {" host/gsym.map || { echo "wording: host/gsym.map is of another layout"; bad=1; }

# ---- writing: what refuses a file has one wording in RULES and twice in the header, which has two numbers of its own;
# and one layout in the header, the export and the binding
awk '/^## / { open = $0 == "## Writing a file" } open && /^\| [0-9]+ \|/ { print }' docs/RULES.md |
    sed 's/^| \([0-9]*\) | \([^|]*\) | .*/\1\t\2/' >"$tmp/writing"
[ "$(wc -l <"$tmp/writing")" = 6 ] || { echo "wording: RULES has other numbers that refuse a file than six"; bad=1; }
sed -n 's|^    GSYM_WRITE_[A-Z_]* = \([0-9]*\),\{0,1\}  *\/\* \(.*\) \*\/$|\1\t\2|p' include/gsym_write.h >"$tmp/enum"
sed '/^3[34]\t/d' "$tmp/enum" >"$tmp/found"
same "the enum of include/gsym_write.h" writing
awk '
    /gsym_write_name\(uint32_t number\)/ { open = 1; n = 29 }
    open && /^}/ { exit }
    open && match($0, /^        "[^"]*",$/) { print n++ "\t" substr($0, 10, RLENGTH - 11) }
    open && /number == [1-9]/ { split($0, words, /== |\)/); at = words[2] + 0 }
    open && at && match($0, /return "[^"]*"/) { print at "\t" substr($0, RSTART + 8, RLENGTH - 9); at = 0 }
' include/gsym_write.h | sort -n >"$tmp/found"
same "gsym_write_name of include/gsym_write.h" enum
written=$(sed -n 's/^#define GSYM_WRITE_LAYOUT \([0-9]*\)$/\1/p' include/gsym_write.h)
for where in include/gsym_write.h crates/gsym_write_c/src/lib.rt bindings/rust/src/write.rs bench/write.rs; do
    grep -q "[ \"]gsym_write_$written\([(\"]\|$\)" $where ||
        { echo "wording: $where has no gsym_write_$written"; bad=1; }
done

[ "$bad" = 0 ] && echo "wording: $count refusals have one wording in six places, $findings findings in six;" \
    "version $version stands in nine, layout $layout in four"
exit "$bad"
