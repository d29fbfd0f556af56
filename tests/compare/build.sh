#!/bin/sh
# build.sh: builds powerlink-rs unchanged, and over it and libpowerlink.a the programs `codes` and `calls` in target/oracle.
set -eu
out=target/oracle
tests/compare/oracle/build-oracle.sh "${POWERLINK_RS:-../shared/docs/src}" "$out"
tests/archive.sh

program() {
    name=$1
    shift
    rustc --edition 2024 -C opt-level=2 --extern powerlink_rs="$out/debug/libpowerlink_rs.rlib" \
        -L "dependency=$out/debug" "$@" "tests/compare/$name.rs" -o "$out/$name"
}

program codes
program calls -L native=target/staticlib -l static=powerlink
