#!/usr/bin/env bash
# Takes up the unfinished step: bash unfinished/take_up.sh, at the top of a clean checkout.
# Its frame replaces the crate frame, its other crates come beside the rest, and the two crates below it are changed as it wants.
set -eu
[ -d unfinished/crates ] && [ -f crates.txt ] || { echo "take_up: not at the top of the repository" >&2; exit 2; }
[ -z "$(git status --porcelain)" ] || { echo "take_up: there are changes that are not committed" >&2; exit 2; }
git apply --check unfinished/below.patch 2>/dev/null || {
    echo "take_up: the crates below have been rewritten since; begin from 9862425c498d35dff22615f1b740ddce425e7631 and bring the result over (unfinished/README.md)" >&2
    exit 1
}
git apply unfinished/below.patch
rm -rf crates/frame
for crate in unfinished/crates/*; do
    mv "$crate" crates/
done
find crates -name '*.rt.txt' -o -name '*.antt.txt' | while read -r file; do
    mv "$file" "${file%.txt}"
done
mv unfinished/replay.md docs/replay.md
cat >>crates.txt <<'LINES'
unwinding: exceptions hosts frame           # what removing a block does, by block and reason; what follows a raise
instructions: table exceptions hosts frame unwinding # the instructions, one function for each
machine: table exceptions hosts frame unwinding instructions # the dispatch of the instructions, and the step
laws: exceptions hosts frame unwinding instructions machine table # what every step keeps, whatever the table
replay: table table_check exceptions hosts frame unwinding machine # the program that answers cases by running them
LINES
rm -r unfinished
