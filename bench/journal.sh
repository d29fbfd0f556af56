#!/bin/sh
# Lists a journal of 100 MB, of records that differ in every field, with the program `journal` and with a plain C program
# that uses printf, in turn, and prints the medians of seven rounds and their ratio. Needs cc and crates/journal/out/journal
# (tests/program.sh journal).
set -eu
cd "$(dirname "$0")/.."
journal=crates/journal/out/journal
dir=$(mktemp -d)
trap 'rm -rf "$dir"' EXIT
cc -O2 -Wall -Wextra -Werror bench/journal_printf.c -o "$dir/printf"

# 4,096 records, doubled 10 times, and 600,000 more: 4.8 million in all. The seconds have 1 to 10 digits in turn.
printf "$(awk '
    function put(n, octets) { while (octets-- > 0) { printf "\\%03o", n % 256; n = int(n / 256) } }
    BEGIN {
        for (i = 0; i < 4096; i++) {
            put(i % 239 + 1, 1)
            put((i % 3 + 1) * 4096 + i * 37 % 4096, 2)
            put(i * 40503 % 65536, 2)
            put(int(4294967295 / 10 ^ (i % 10)) - i % 4, 4)
            put(i * 244141 % 1000000000, 4)
            put(i * 1048583 % 4294967296, 4)
            put(i * 786433 % 4294967296, 4)
        }
    }')" >"$dir/records"
for _ in 1 2 3 4 5 6 7 8 9 10; do
    cat "$dir/records" "$dir/records" >"$dir/more"
    mv "$dir/more" "$dir/records"
done
{
    printf 'PLB\001\000'
    cat "$dir/records"
    head -c $((21 * 600000)) "$dir/records"
} >"$dir/journal"
"$journal" <"$dir/journal" >"$dir/ours"
"$dir/printf" <"$dir/journal" >"$dir/theirs"
cmp "$dir/ours" "$dir/theirs"

# The nanoseconds of a run.
took() {
    began=$(date +%s%N)
    "$1" <"$dir/journal" >"$dir/out"
    echo $(($(date +%s%N) - began))
}
for _ in 1 2 3 4 5 6 7; do
    took "$journal" >>"$dir/times.ours"
    took "$dir/printf" >>"$dir/times.theirs"
done
median() { sort -n "$1" | sed -n 4p; }
ours=$(median "$dir/times.ours")
theirs=$(median "$dir/times.theirs")
echo "listing $(wc -c <"$dir/journal") octets: ours $((ours / 1000000)) ms, printf $((theirs / 1000000)) ms, ratio $((100 * ours / theirs)) %"
