#!/bin/sh
# Builds powerlink-rs unchanged and compares its answers with ours: the code tables, then every call on frames and
# StatusResponses, then the sample of them that crates/replay has. FACTOR times the random cases.
set -eu
out=target/oracle
tests/compare/build.sh
"$out/codes" >"$out/codes.txt"
head -n "$(wc -l <"$out/codes.txt")" crates/codes/stdout | diff "$out/codes.txt" -
"$out/calls" "${FACTOR:-1}"
CALLS=$out/calls tests/compare/sample.sh --check
