#!/bin/sh
# Counts the places of docs/DESIGN-PASS.md's points in the sources, for the commit or tree that is checked out.
cd "$(dirname "$0")/.." || exit 1
src='crates/*/src/*.rt'

count() {
    printf '%4d  %s\n' "$(wc -l)" "$1"
}

# 1. Own enums with a variant for nothing or for a refusal, and structs with a field that says whether or why not.
git grep -hE '^    (Good|Missing|Unknown|Absent|Nothing|Plain),' -- $src | count '1a enums with a variant for nothing (Option)'
git grep -hE '^    Refused\(Refusal\),' -- $src | count '1b enums with a variant for a refusal (Result)'
git grep -hE '^    (pub )?(checked: Checked|kept: bool),' -- $src | count '1c structs with a flag or a refusal beside the values'
git grep -hE '(entered|Entered \{) ?|MOST_RECORDS < n|MOST_RECORDS < count' -- $src | grep -E 'MOST_RECORDS < (n|count) \{' | count '1d counts that stand for a refusal'
git grep -hE '^const (CONSTANT|ADD|SUB|NEG): u64|has_tag\(' -- $src | count '1e kinds by number (tag constants and their tests)'
git grep -hE 'is_refused\(' -- $src | count '1f tests of a refusal that ? makes'

# 2. Twins: families by size, and functions that differ in a word, an operation or a number.
git grep -hE 'fn [a-z_]+_sized\(' -- $src | count '2a families by size (_sized, with a block a size)'
git grep -hE 'fn (tag|first|second)_(at|of)\(' -- $src | count '2b accessors that differ in which word'
git grep -hE 'fn (low_add|low_mul|answers|answers_long|wide|copy_words|put_bytes|fill|blank_text)\(' -- $src | count '2c functions that differ in a type or an operation'
git grep -hE 'known = field::numbered\(' -- $src | count '2d calls that each look up their field'

# 3. Loops that count by hand.
git grep -hE '^ *(while |loop \{|.[a-z_]+: loop)' -- $src | count '3a while and loop'
git grep -hE '^ *while 0 < ' -- $src | count '3b of them downwards or by a number that falls'

# 4. Written by hand: equality, choices of two truths or two numbers, conversions.
git grep -hE 'fn (same|both|all|either|larger|greater|less|score|wide)\(' -- $src | count '4a functions that std has'
git grep -hE 'if .* \{ .* \} else \{ false \}|if .* \{ true \} else' -- $src | count '4b choices of truths on one line'
git grep -hE '^        (false|true)$' -- $src | count '4c choices of truths on more lines'
git grep -hE 'fn (number_of|place_of|form_number|numbered|call_of|name_of|decode|end_byte)\(' -- $src | count '4d conversions by a function'

# 5. Parameters that travel together.
git grep -hzoE 'fn [a-z_]+[^;{]*list: &(mut )?\[u64\],\s*n: usize' -- $src | tr '\0' '\n' | grep -c 'list: ' | awk '{printf "%4d  %s\n", $1, "5a functions of list and n"}'
git grep -hE 'lengths: &\[u64\], entries' -- $src | count '5b functions of lengths and entries (on one line)'
git grep -hE '\) -> Entered$' -- $src | count '5c functions that answer a place and a count'
git grep -hE 'own: &\[u64\]' -- $src | count '5d functions of own (list, n, own, fan)'

# 6. Buffers with a length beside them.
git grep -hE 'let mut [a-z0-9_]+ = \[\[?(0|0u64|0u8|false)' -- $src | count '6a arrays made for a part of them'
git grep -hE '\.\.(n|t|count|period|words)\]' -- $src | count '6b parts of such arrays lent'

# 7. A step chosen by a switch.
git grep -hE '=> (self|[a-z_]+::)?[a-z_]+\(.*list, n' -- $src | count '7a arms that call with the same arguments'
