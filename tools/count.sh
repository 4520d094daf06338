#!/bin/sh
# Counts, at a commit (HEAD where none is given), the places that docs/DESIGN-PASS.md tells of: `tools/count.sh COMMIT`, or with
# `-v` before the commit the lines too. Tests are left out.
lines=no
[ "$1" = -v ] && lines=yes && shift
at=${1:-HEAD}
cd "$(git rev-parse --show-toplevel)" || exit 1

count() {
    found=$(git grep -nP "$2" "$at" -- ':(glob)crates/*/src/**/*.rt' ':(glob)crates/*/src/*.rt' ':(exclude,glob)**/tests.rt')
    echo "$1: $(printf '%s' "$found" | grep -c '')"
    [ $lines = yes ] && printf '%s\n' "$found" | sed "s/^$at:/    /"
}

visible='(pub(\([a-z]+\))? )?'
count '1a enums' "^\\s*${visible}enum "
count '1b flags' "^\\s+${visible}[a-z_]+: bool,"
count '1c numbers for kinds, refusals and wants' \
    '(^const NO_|fn (number|no_book_number|from_byte|numbered|lines|lines_among|drive_number|mode_number|tell|half_product|half_sum|narrow_\w+|trace\w*)\b.*->|kind: u32|number: u32, at|why: u8|Refused\(u8\)|number: u8)'
count '1d results taken apart by hand' \
    '(Ok\(\w*\) => (Ok|Some)\(|Err\(\w+\) => (Err|None|Ok)\b|Some\(\w+\) => (Ok|Some)\(|None => (Ok|Err|None)\b)'
count '3a while, loop, and for over numbers' '(^\s+(.\w+: )?(while|loop)\b|for [a-z_]+ in [^{]*\.\.)'
count '3b counters beside a for' '^\s+(number|at|k|end|count) \+= '
count '4a conversions, equality and printing by hand' \
    'fn (number|from_byte|numbered|same|moved|is_word|barren|low_byte|high_byte|two_bytes|pair|window|interval|item_of|record_of|put_\w+|\w+_text|value_line|number_row|push_\w+|digit|nibble|from_word|word|has|tell|settled|pinched|done|opened|ended)\b'
count '4b derives of Clone and Copy alone' '^#\[derive\((Clone, Copy|Copy, Clone)\)\]$'
count '5a a meaning spelled out by four names' 'meaning (\w\.)?(\w+\.)?[BS]\w*\.(Book\.)?top|meaning B\.top'
count '5b tickets in step, in a clause' '(requires|ensures).*InStep'
count '6 arrays' '\[\w+; (\d+|[A-Z]+)\]'
count '7 closures as parameters, dyn, function pointers' '(dyn |: fn\(|Fn(Once|Mut)?\()'

files() { git ls-tree -r --name-only "$at" | grep "crates/[^/]*/proofs/.*$1"; }
echo "8 answers: $(files 'Answers\.antt' | while read -r f; do git show "$at:$f"; done | grep -cE '^pub [^ ]+ : goal\.') in $(files 'Answers\.antt' | wc -l) files"
echo "8 lines of proofs: $(files '\.antt' | while read -r f; do git show "$at:$f"; done | wc -l)"
