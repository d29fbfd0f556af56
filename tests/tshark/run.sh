#!/bin/sh
# run.sh [check|store]: frames of all kinds, made by our C functions, as Wireshark's tshark (Debian's package tshark) decodes them,
# compared field by field with what our readers say. tshark's answers are kept in answers.gz: `check` asks tshark and demands the
# same, `store` writes them anew. The library must have been built for C.
set -eu
cd "$(dirname "$0")/../.."
lib=target/staticlib/libpowerlink.a
if [ ! -f "$lib" ]; then
    echo "tests/tshark: there is no $lib (tests/archive.sh)"
    exit 1
fi
if [ -n "$(find crates crates.txt -name out -prune -o \( -name '*.rt' -o -name crates.txt \) -newer "$lib" -print | head -n 1)" ]; then
    echo "tests/tshark: $lib is older than the sources (tests/archive.sh)"
    exit 1
fi
out=$(mktemp -d)
trap 'rm -rf "$out"' EXIT
cc -std=c99 -Wall -Wextra -Werror -pedantic -Iinclude tests/tshark/frames.c "$lib" -o "$out/frames"
"$out/frames" "$out/frames.pcap" > "$out/lines"
if [ $# -gt 0 ]; then
    python3 tests/tshark/answers.py "$1" "$out/frames.pcap" tests/tshark/answers.gz
else
    python3 tests/tshark/compare.py "$out/frames.pcap" "$out/lines" tests/tshark/answers.gz
fi
