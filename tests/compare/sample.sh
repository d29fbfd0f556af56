#!/bin/sh
# sample.sh [--check]: writes the sample that the program `replay` replays where there is no Rust, crates/replay/stdin: some
# cases of every call with the answers of powerlink-rs (commit 3984eaf980, whose sums oracle/SHA256 has), as `calls sample`
# gives them. calls/sample.rs says which cases these are, and the form of the file. With --check the file must be the same.
# CALLS names the program if it is built.
set -eu
sample=crates/replay/stdin
calls=${CALLS:-}
if [ -z "$calls" ]; then
    tests/compare/build.sh
    calls=target/oracle/calls
fi
new=$(mktemp)
trap 'rm -f "$new"' EXIT
"$calls" sample >"$new"
if [ "${1:-}" = --check ]; then
    if ! cmp "$new" "$sample"; then
        echo "sample: $sample is not what powerlink-rs answers (tests/compare/sample.sh writes it anew)"
        exit 1
    fi
    echo "sample: $sample is as made from powerlink-rs"
else
    cat "$new" >"$sample"
    echo "sample: $sample is written; crates/replay/stdout has its number of cases"
fi
