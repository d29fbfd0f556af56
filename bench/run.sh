#!/bin/sh
# Builds powerlink-rs unchanged and bench/speed.rs, and times our C functions beside it. Writes all rows to docs/performance.txt,
# and prints them by group. ROUNDS says how many rounds (501); ROWS picks rows by a part of their name, which are then only
# printed. Needs rustc, the sources of powerlink-rs (POWERLINK_RS names another folder than the one beside the repository) and
# the archive that tests/archive.sh makes (POWERLINK_LIB_DIR names another folder than target/staticlib).
set -eu
cd "$(dirname "$0")/.."
if ! lacks=$(tests/compare/inputs.sh); then
    echo "not there: $lacks" >&2
    exit 1
fi
lib=${POWERLINK_LIB_DIR:-target/staticlib}
if [ ! -f "$lib/libpowerlink.a" ]; then
    echo "there is no $lib/libpowerlink.a: run tests/archive.sh" >&2
    exit 1
fi
oracle=target/oracle
out=target/bench
tests/compare/oracle/build-oracle.sh "${POWERLINK_RS:-../shared/docs/src}" "$oracle"
mkdir -p "$out"

# As cargo builds for release: optimized, no link-time optimization.
build() {
    rustc --edition 2024 -C opt-level=3 --extern powerlink_rs="$oracle/release/libpowerlink_rs.rlib" \
        -L "dependency=$oracle/release" "$@"
}
build --crate-type rlib bench/plain.rs -o "$out/libplain.rlib"
build --extern plain="$out/libplain.rlib" -L "native=$lib" -l static=powerlink bench/speed.rs -o "$out/speed"
"$out/speed" "${ROUNDS:-501}" >"$out/rows"
cat "$out/rows"
if [ -z "${ROWS:-}" ]; then
    cp "$out/rows" docs/performance.txt
    bench/groups.sh docs/performance.txt
fi
