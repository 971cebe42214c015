#!/usr/bin/env bash
# Counts, for each point of the design pass, the places of src/ that a plain search finds: bash tools/places.sh [FOLDER]
# A line that says why it is kept carries `kept:`; the searches count it all the same.
cd "${1:-$(dirname "$0")/..}" || exit 1
src() { grep -rnE --include=*.rt "$1" crates/*/src; }
count() { printf '%-64s %4d\n' "$1" "$(src "$2" | wc -l)"; }
echo "1. Own Options and Results, flags with a value, numbers for kinds or refusals"
count "  replies with a case for what was refused" '^\s+(Refused|Faulty)\('
count "  marks beside values" ': &?\[bool|on_right\('
count "  values that stand for none" "'\\\\0'|UNMADE|\(7, 7\)|kind: 0,|_ => \(?(ZEROS|0, )|(Ok|Err)\(_\) => \("
count "  refusals as pairs of numbers" '\(u8, u32\)'
echo "2. Twins"
printf '%-64s %4d\n' "  names of functions and types that stand in two or more files" \
    "$(grep -roE --include=*.rt '(fn|struct|enum) [A-Za-z_0-9]+' crates/*/src | sed 's/^[^:]*://' | sort | uniq -d | wc -l)"
count "  functions that do another's work with room handed in" '^(pub )?fn \w+_in\b'
count "  words asked one after another" 'if is\('
echo "3. Loops that count by hand"
count "  loops over a range" 'for [a-z_]+ in .*\.\.'
count "  counters" '\w+ \+= 1;'
count "  other loops" '^\s+(while|loop)\b'
echo "4. Equality, order, copying, conversion and printing by hand"
count "  equality" 'fn (same|same_image|is_one)\b|\.value\(\) [=!]= |\.0\.0 == '
count "  casts" ' as (u8|u16|u32|u64|usize|char)\b'
count "  errors passed on by a match" 'Err\((why|refusal)\) => (return )?Err\(why|if let Err\('
echo "5. Facts in the contracts of three or more functions"
printf '%-64s %4d\n' "  clauses that stand word for word in three or more contracts" \
    "$(grep -rhoE --include=*.rt 'requires (\w+ )?\{.*\}' crates/*/src | sort | uniq -c | awk '$1 > 2' | wc -l)"
echo "6. Buffers with a length beside them"
count "  fields that count what an array holds" '^\s+(pub(\(crate\))? )?(len: usize|count: u8),$'
echo "7. Switches on which step to run"
count "  enums of steps" 'enum (Verb|Operation|Topic)\b'
echo "8. Proofs"
printf '%-64s %4d\n' "  files of answers" "$(find crates/*/proofs -name Answers.antt | wc -l)"
printf '%-64s %4d\n' "  lines of answers" "$(find crates/*/proofs -name Answers.antt -exec cat {} + | wc -l)"
printf '%-64s %4d\n' "  lines of other proof files" "$(find crates/*/proofs -name '*.antt' ! -name Answers.antt -exec cat {} + | wc -l)"
