#!/bin/sh
# Builds the archive for C, target/staticlib/libpowerlink.a, where it is missing, or older than a source, a definition or a proof of a
# crate that it is made of. `rt lib` proves these crates, over what earlier checks kept, and names the archive after the crate.
set -eu
cd "$(dirname "$0")/.."
lib=target/staticlib/libpowerlink.a
crates=$(sed -n 's/^powerlink_c staticlib://p' crates.txt)
# shellcheck disable=SC2086
if [ ! -f "$lib" ] || [ -n "$(cd crates && find powerlink_c $crates ../crates.txt -name out -prune -o \( -name '*.rt' -o -name '*.antt' -o -name crates.txt \) -newer "../$lib" -print | head -n 1)" ]; then
    mkdir -p target/staticlib
    (cd crates/powerlink_c && rt lib)
    cp crates/powerlink_c/out/libpowerlink_c.a "$lib"
fi
