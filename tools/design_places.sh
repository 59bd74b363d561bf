#!/bin/sh
# Counts in the sources the places that docs/DESIGN-PASS.md speaks of, in the working tree or at a commit:
# `sh tools/design_places.sh [--list] [COMMIT]`. A line is `POINT | what | how many`; with --list each place stands below
# its line. What is counted is told by the commands here: a place is a line that a pattern finds, or a function.
set -u
cd "$(dirname "$0")/.." || exit 2
list=
[ "${1:-}" != --list ] || { list=1; shift; }
tmp=$(mktemp -d) || exit 2
trap 'rm -rf "$tmp"' EXIT
if [ $# -gt 0 ]; then
    git archive "$1" crates | tar xf - -C "$tmp" || exit 2
    cd "$tmp" || exit 2
fi

# What was written later, in the forms of its day, is left out everywhere: what the tools print.
later='^crates/gsym_(printed|tool|text_c)/'
# code PATTERN: the lines of src/ that the pattern finds, comments left out
code() { grep -rnE "$1" crates/*/src --include='*.rt' | grep -vE '^[^:]*:[0-9]+: *//' | grep -vE "$later"; }
# in_libraries: of these only those of libraries; the programs and the caller are left out
in_libraries() { grep -vE '^crates/(reader_cases|lookup_cases|check_cases|gsym_caller)/'; }
# functions: FILE:LINE:NAME of every function
functions() { code '^ *(pub(\([a-z]+\))? )?(const )?(unsafe )?(extern "C" )?fn [a-z]' | sed -E 's/^([^:]*:[0-9]+):.*fn ([a-z0-9_]+).*/\1:\2/'; }
# types WITHOUT: structs and enums whose derives lack the word
types() {
    for file in $(ls crates/*/src/*.rt | grep -vE "$later"); do
        awk -v file="$file" -v want="$1" '
            /^ *#\[derive/ { derives = derives $0 }
            /^ *(pub(\([a-z]+\))? )?(struct|enum) / { if (derives !~ want) print file ":" FNR ":" $0; derives = "" }
            /^ *}/ { derives = "" }' "$file"
    done
}
# say POINT WHAT: the places on standard input
say() {
    cat >"$tmp/places"
    echo "$1 | $2 | $(grep -c . <"$tmp/places")"
    [ -z "$list" ] || sed 's/^/      /' "$tmp/places"
}

code '^ *(pub(\([a-z]+\))? )?enum ' | say 1 "own enums"
for file in crates/*/src/*.rt; do
    awk -v file="$file" '/^ *(pub(\([a-z]+\))? )?enum /{ open = 1 } /^}/ { open = 0 }
        open && /^ +(End|Bad|Unread|Torn|Closed|Refused|Stopped|UsedUp)[(,]/ { print file ":" FNR ":" $0 }' "$file"
done | grep -vE "$later" | in_libraries | say 1 "variants of own enums that say that there is nothing, or why"
{
    code 'Err\(_\) => (return )?None|Some\([a-z_]+\) => Some\('
    for file in crates/*/src/*.rt; do
        awk -v file="$file" '/else \{$/ { line = FNR; next } line == FNR - 1 && /^ *return None;$/ { print file ":" line ": else { return None; }" }' "$file"
    done
} | in_libraries | say 1 "matches that only turn a Result or an Option into another"
code '^ *(pub )?[a-z_]+: bool,' | in_libraries | say 1 "fields of structs that are flags"
code 'Result<.*, u8>|^ *(pub )?number: u(8|32),|const [A-Z_]+: u(8|32) = [0-9]+;' | in_libraries | say 1 "numbers for refusals and kinds: results, fields, constants"
functions | in_libraries | awk -F '[:/]' '{
    name = $NF; gsub(/sixteen|eight|four|two|one|few|many|all|unsigned|signed|frames|records|[0-9]+/, "N", name)
    key = $2 " " name; at[key] = at[key] $0 "\n"; if (!seen[key " " $NF]++) n[key]++ }
    END { for (k in n) if (n[k] > 1) printf "%s", at[k] }' | sort | say 2 "functions of a crate whose names differ in a number, a width or the kind of list alone"
functions | grep -E '^crates/(gsym|gsym_c|resolver|gsym_resolver)/' |
    grep -E ':(lookup_in|text_in|lookup|text|lookup_few|lookup_many|lookup_all|lookup_by|lookup_plain)$' | say 2 "functions that are a lookup or a text under another name"
code '\bwhile\b' | in_libraries | grep -v 'while let' | say 3 "while loops"
code '^ *(.[a-z_]+: )?loop \{' | in_libraries | say 3 "loops without a condition"
code 'while let' | in_libraries | say 3 "while let over places"
code '\bfor [a-z_]+ in [0-9a-z_.]+\.\.' | in_libraries | grep -v 'for _ in' | say 3 "for over a range whose index is used"
code '\bfor .* in ' | in_libraries | grep -vE 'for [a-z] in [0-9a-z_.]+\.\.' | say 3 "for that counts nothing by hand"
types Debug | in_libraries | say 4 "types without Debug"
types PartialEq | in_libraries | say 4 "types without PartialEq and Eq"
functions | in_libraries | grep -E ':(flag|options_of|answered|answer|fault_number|refused|listing|laid[a-z_]*|lay_[a-z_]+|asked_by|unread|without_row|as_[a-z_]+|of_bits|to_bits|numbers_for)$' | say 4 "conversions as functions of their own"
code '\bas (u8|u16|u32|u64|usize|i64)\b' | grep -v ' use ' | in_libraries | say 4 "casts by as"
code '^ *impl.* (PartialEq|Eq|Ord|PartialOrd|Clone|Copy|Default|Hash|Debug|Display)\b.* for ' | in_libraries | say 4 "impls by hand of what can be derived"
code '^ *requires' | in_libraries | say 5 "requires clauses"
code '^ *requires.*Within' | say 5 "  of them: the tables lie in the file"
code '^ *requires.*length (store|out|frames|records)' | say 5 "  of them: a lent list of numbers is long enough"
code '^ *requires.*(≤|<) length (s|file|ops|table)\b' | say 5 "  of them: a place lies in the bytes"
code '(file|self): &(.a )?\[u8\],? *(tables|header): [A-Z]|^ +tables: Tables,' | in_libraries | grep -v 'pub tables' | say 5 "functions that take the file and its tables side by side"
code '&(mut )?\[u(32|64)\]|&mut \[\[u64; 7\]\]' | in_libraries | say 6 "lists of numbers where records are meant: parameters and locals"
code '\[0(u32|u64|u8)?; ' | in_libraries | say 6 "buffers of numbers"
code '_WIDTH' | in_libraries | say 6 "uses of a width of 3 or 7 numbers"
functions | in_libraries | grep -E ':(halve|near|find_[a-z_]+)$' | say 6 "searches of a sorted list by hand"
code '\bdyn\b|\bimpl Fn|: fn\(|-> fn\(' | say 7 "closures as parameters, dyn, function pointers"
code 'match (kind|op|opcode|size|width|ops\[[a-z.]+\])' | in_libraries | say 7 "matches on which step to run or on a width"
find crates/*/proofs -name Answers.antt | grep -vE "$later" | sort | say 8 "files of answers"
grep -rE '^pub [^ ]+ : goal\.' crates/*/proofs --include=Answers.antt | grep -vE "$later" | say 8 "answers in them"
find crates/*/proofs -name Invariants.antt | grep -vE "$later" | sort | say 8 "files of invariants"
code '#\[tactic\(' | grep -v '#!\[' | say 8 "functions proved by an attribute that names definitions or laws"
