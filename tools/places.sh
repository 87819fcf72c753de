#!/usr/bin/env bash
# Counts what docs/DESIGN-PASS.md counts, in the sources of a checkout (by default this one). `-l` also lists the lines.
set -euo pipefail
list=no; if [ "${1:-}" = -l ]; then list=yes; shift; fi
cd "${1:-$(dirname "$0")/..}"
src() { find crates -path '*/src/*.rt' ! -path '*/out/*' | sort; }
show() { # a label, and lines on standard input
  local lines; lines=$(cat); local n; n=$(printf '%s' "$lines" | grep -c . || true)
  printf '%-58s %4s\n' "$1" "$n"
  if [ $list = yes ] && [ "$n" != 0 ]; then printf '%s\n' "$lines" | sed 's/^/    /'; fi
}
find_all() { src | xargs grep -nE "$1" | grep -vE '^[^:]*:[0-9]*: *//' || true; }
echo '1. enums, and numbers or truths that stand for a kind'
find_all '^ *(pub(\(crate\))? )?enum ' | show 'enums'
find_all 'Result<[^>]*, *(u8|u16|u32|usize|bool|\(\))>|Option<\(\)>' | show 'refusals by a number'
find_all '^ *(pub(\(crate\))? )?[a-z_]+: bool,$' | show 'truths in structs'
echo '2. what is defined twice under one name'
src | xargs grep -hoE '^ *(pub(\(crate\))? )?(fn|const|struct|enum) [A-Za-z_0-9]+' | sed -E 's/.*(fn|const|struct|enum) //' | sort | uniq -d | show 'names'
echo '3. loops'
find_all '^ *(while|loop)\b' | show '`while` and `loop`'
find_all '[a-z]+ [+-]= 1;|saturating_add\(1\)' | show 'counters'
find_all '^ *(.[a-z]+: )?for [a-z_]+ in [0-9a-z_.=()]*\.\.' | show '`for` over a range'
echo '4. conversion, comparison and printing'
find_all ' as (u8|u16|u32|u64|usize)\b' | show 'conversions by `as`'
find_all 'impl.* (PartialEq|Eq|PartialOrd|Ord|Clone|Copy|Hash|Default)\b.* for' | show 'comparisons and copies by hand'
find_all 'fn [a-z_]*(name|number|yes_or_no|alike|kept|value_of|call_place)\(' | show 'functions that give a text or a number for a value'
find_all 'Display for' | show '`impl Display`'
echo '5. facts and parameters that are repeated'
find_all '\bSound \(' | show 'clauses with `Sound`'
find_all '\bLinked \(' | show 'clauses with `Linked`'
find_all '\b(Stays|StaysIn) \(' | show 'clauses with `Stays` or `StaysIn`'
find_all 'length [a-z.]+ ≡ (256|65536)' | show 'clauses with the length of an array'
find_all 'set_end bytes.now at ≤ length bytes.now' | show 'clauses that say that a set lies whole in bytes'
find_all 'size \* .*≤ 256|fits\(' | show 'lines about a product that fits'
src | xargs perl -0777 -ne 'while (/fn \w+(<[^>]*>)?\(([^)]*)\)/g) { my $p=$2; $p =~ s/\s+/ /g; print "$ARGV $p\n" if $p =~ /source: &S, .*entries: &(mut )?Entries|table: &Table|bytes: &\[u8\], (at|from)|buffer: &mut \[u8\], at/ }' | show 'functions with parameters that go together'
echo '6. arrays'
find_all '\[[A-Za-z<>0-9]+; *[0-9]+\](,|;| *$)' | grep -v const | show 'fields that are arrays'
echo '7. switches and tables of functions'
find_all 'step: Step|match step|dyn |fn\(' | show 'lines'
echo '8. answers'
find crates -path '*/proofs/*' -name Answers.antt ! -path '*/out/*' | xargs cat | grep -E '^pub .* : goal\.' | show 'answers'
find crates -path '*/proofs/*.antt' ! -path '*/out/*' | xargs cat | wc -l | xargs printf '%-58s %4s\n' 'lines of proofs'
