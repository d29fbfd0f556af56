#!/bin/sh
# program.sh NAME..: proves and builds the programs of these names, crates/NAME/out/NAME, where one is missing, or older than a source,
# a definition or a proof of its crate or of one below. `rt run` builds a program by running it: here on no input.
set -eu
cd "$(dirname "$0")/.."
for name; do
    program=crates/$name/out/$name
    crates=
    for low in $(sed -n "s/^$name: *//p" crates.txt); do
        [ ! -d "crates/$low" ] || crates="$crates $low"
    done
    # shellcheck disable=SC2086
    if [ ! -x "$program" ] || [ -n "$(cd crates && find "$name" $crates ../crates.txt -name out -prune -o \( -name '*.rt' -o -name '*.antt' -o -name crates.txt \) -newer "../$program" -print | head -n 1)" ]; then
        rm -f "$program"
        (cd "crates/$name" && rt run </dev/null >/dev/null) || [ -x "$program" ]
    fi
done
