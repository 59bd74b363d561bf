#!/bin/sh
# docs/PROMISES.md says what the sources say. Every public function of a library has an `ensures` and no `requires`, and
# stands in that page as `crate::name` or `crate::Type::name`; what a row of it gives as a clause of a function, by name
# and text or by text alone where there is one, is that function's clause word for word; each must-fail edit stands there
# too, of the gate and of tests/more_edits, which have no name twice. Prints what is missing or otherwise; 1 if anything is.
set -u
cd "$(dirname "$0")/.." || exit 2
page=docs/PROMISES.md
tmp=$(mktemp -d) || exit 2
trap 'rm -rf "$tmp"' EXIT
bad=0

# a line for each clause of a public function: crate::name, which kind, its name, its text; one without any has one line
for file in crates/*/src/*.rt; do
    crate=$(echo "$file" | cut -d/ -f2)
    # programs promise nothing
    [ ! -f "crates/$crate/src/main.rt" ] || continue
    awk -v crate="$crate" -v file="$file" '
        function told() {
            if (kind != "") {
                sub(/ *\}$/, "", text); gsub(/[ \t]+/, " ", text); sub(/^ /, "", text); sub(/ $/, "", text)
                print file "\t" crate "::" name "\t" kind "\t" clause "\t" text
                some = 1
            }
            kind = ""
        }
        !open && /^ *pub (const )?(unsafe )?(extern "C" )?fn [a-z]/ {
            name = $0
            sub(/^ *pub (const )?(unsafe )?(extern "C" )?fn /, "", name); sub(/[^a-z0-9_A-Z].*/, "", name)
            open = 1; some = 0; kind = ""
        }
        open {
            line = $0
            sub(/^ +/, "", line)
            if (line ~ /^(ensures|requires)/) {
                told()
                kind = line; sub(/ .*/, "", kind)
                clause = line; sub(/^[a-z]+ */, "", clause); sub(/ *\{.*/, "", clause)
                text = line; sub(/^[^{]*\{/, "", text)
            } else if (line ~ /^\{\}?$/ || (kind == "" && line ~ /\{\}?$/)) {
                told()
                if (!some) print file "\t" crate "::" name "\tnone\t\t"
                open = 0
            } else if (kind != "" && line !~ /^\/\//) {
                text = text " " line
            }
        }' "$file"
done >"$tmp/clauses"

for fault in requires none; do
    awk -F '\t' -v fault=$fault '$3 == fault {
        print $1 ": " $2 (fault == "none" ? " is public and has no ensures" : " is public and has a requires"); n = 1 } END { exit n }' \
        "$tmp/clauses" || bad=1
done
cut -f2 "$tmp/clauses" | sort -u >"$tmp/functions"
while read -r function; do
    crate=${function%%::*}
    name=${function##*::}
    grep -qE "\`$crate::([A-Z][A-Za-z]*::)?$name\`" "$page" || { echo "$function is not in $page"; bad=1; }
done <"$tmp/functions"

# rows: | `crate::[Type::]name` | `text` or `clause`: `text`; .. | ..; where a promise stands first, the two cells after it
awk -F '\t' -v page="$page" '
    FNR == NR { clause[$2 "\t" $4 "\t" $5] = 1; known[$2] = 1; next }
    /^\|.*`(gsym[a-z0-9_]*|reader_c|report_c)::/ {
        n = split($0, cells, " \\| ")
        at = cells[1] ~ /^\| `(gsym[a-z0-9_]*|reader_c|report_c)::/ ? 1 : 2
        who = cells[at]
        if (who !~ /^(\| )?`(gsym[a-z0-9_]*|reader_c|report_c)::[A-Za-z0-9_:]+`$/) next
        gsub(/[| `]/, "", who)
        m = split(who, parts, "::")
        who = parts[1] "::" parts[m]
        if (!(who in known)) { print page ":" FNR ": " who " is no public function"; bad = 1; next }
        k = split(cells[at + 1], spans, "`")
        for (i = 2; i <= k; i += 2) {
            word = ""; text = spans[i]
            if (text ~ /^[a-z_0-9]+$/ && spans[i + 1] == ": ") { word = text; i += 2; text = spans[i] }
            else if (k > 3) continue
            if (!((who "\t" word "\t" text) in clause)) { print page ":" FNR ": " who " has no clause " word " { " text " }"; bad = 1 }
            told++
        }
    }
    END { print told + 0 >"/dev/stderr"; exit bad }' "$tmp/clauses" "$page" 2>"$tmp/told" || bad=1

edits=0
more=0
for file in crates/*/must-fail/*.edit tests/more_edits/*/*.edit; do
    [ -f "$file" ] || continue
    name=$(basename "$file" .edit)
    case $file in
    crates/*) edits=$((edits + 1)) ;;
    *)
        more=$((more + 1))
        crate=$(basename "$(dirname "$file")")
        [ ! -f "crates/$crate/must-fail/$name.edit" ] || { echo "$file: crates/$crate/must-fail has one of this name"; bad=1; }
        ;;
    esac
    grep -q "\`$name\`" "$page" || { echo "$file: $name is not in $page"; bad=1; }
done
[ "$bad" = 0 ] && echo "promises: $(grep -c . <"$tmp/functions") public functions, $edits must-fail edits and $more on demand are in" \
    "$page, and $(cat "$tmp/told") clauses as the sources have them"
exit "$bad"
