#!/usr/bin/env bash
# Counts the places where the code may still read like an older Rattle, point by point: bash tools/places.sh [TOP] [-v]
# docs/DESIGN-PASS.md says what each line counts. With -v the lines themselves are printed too.
top="${1:-.}"
verbose="${2:-}"
cd "$top" || exit 2
sources() { find crates -name out -prune -o -path '*/src/*.rt' -print | sort; }
code() { sources | xargs grep -nE "$@" /dev/null | grep -vE '^[^:]+:[0-9]+: *//'; }
notes() { sources | xargs grep -nE "$@" /dev/null; }
say() {
    local name="$1" found
    shift
    found="$("$@")"
    printf '%5d  %s\n' "$(printf '%s' "$found" | grep -c .)" "$name"
    [ "$verbose" = -v ] && [ -n "$found" ] && printf '%s\n' "$found" | sed 's/^/         /'
}
answers() { find crates -name out -prune -o -path '*/proofs/*' -name Answers.antt -print; }
plain() {
    answers | sort | while read -r file; do
        grep -vE '^(use |--|$)|^(pub )?[a-z_0-9-]+ : goal\.|^unfolding |^[a-z_0-9-]+( [a-z]+)? = search rules$' "$file" >/dev/null || echo "$file"
    done
}

say '1a functions that answer bool' code -- '-> bool'
say '1b comments on a number that stands for none' notes '\b0 for no'
say '1c fields and parameters that hold a kind as a number' code '\b(kind|opcode|end|x): u(8|16)\b'
say '1d a match of Ok, Err, Some or None that only passes on or replaces' code '(Ok\(\(\)\) => Ok\(\(\)\)|None => (Err\(|Node \{|Shape \{)|Some\((value|node|shape)\) => (Ok\(value\)|node|shape),)'
say '2a functions that read a value at a byte offset' code 'fn [a-z0-9_]+_at\(bytes: &\[u8\], at: usize\)'
say '2b tests of an index against the number of records' code 'if (i|number) (>=|<) '
say '2c types with an array and a length' code '^    (len|opened): (usize|u8),'
say '2d demands that ask a part of a node' code 'Rule::(Kind|End|Parent|Level|Handler) \{'
say '2e functions that two programs have alike' code '^fn (digit|push_hex|bytes_of|main)\('
say '3a loops' code '^ *(while|loop|for) '
say '4a derives of copying and no equality' code 'derive\(Clone, Copy(, Debug, PartialEq)?\)'
say '4b functions that turn a type into a text' code -- "-> (&'static str|Result<String)"
say '4c functions that turn a number into a kind, or a kind into a number' code 'fn (from_byte|raise_kind|kind_byte|kind_number|same_kind|number)\('
say '5a requires in all' code '^ *requires '
say '5b requires that an index is an instruction' code 'requires .*at < instruction_count'
say '5c parameters table and at together' code '^fn .*table: &Table.*, at: usize|^    at: usize,$|^pub fn .*table: &Table.*, at: usize'
say '5d clauses that see a value through levels_of, values, standing' code 'ensures.*\((levels_of|values|standing) [a-z.]+\)|ensures.*\{ (levels_of|values|standing) '
say '5e methods that do nothing but state a fact' code 'fn vouch'
say '6a arrays of a fixed size' code '(: |-> )\[[A-Za-z0-9<>]+; [A-Z0-9]+\]'
say '6b cursors beside a slice' code '^    at: usize,$'
say '7a a match over instructions, kinds or reasons' code 'match (op|self\.opcode|node\.kind|instruction|self\.kind)\b'
say '7b closures, dyn values and function pointers' code '\|[a-z_, ]+\|( |$)|dyn |\bFn(Mut|Once)?\('
say '8a answer files' answers
say '8b answer files that only unfold or search' plain
say 'Kept: places that stay, each with its reason' notes '// Kept: '
