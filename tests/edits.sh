#!/bin/sh
# edits.sh CRATE[/EDIT]...: tries the must-fail edits of these crates, or these edits, and no others, and says which wrong answers are not
# refused at a fact of their own. `rt check` proves the crates first, over what it kept; what the prover says of an edit is then in
# target/must-fail/CRATE/EDIT.log. That `rt` takes the edit as refused, and not as a bad one, `rt must-fail CRATE` says.
set -eu
cd "$(dirname "$0")/.."
for crate in $(printf '%s\n' "$@" | sed 's,/.*,,' | sort -u); do
    (cd "crates/$crate" && "${RT:-rt}" check)
done
python3 tests/wrong_answers.py "$@"
