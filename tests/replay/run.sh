#!/bin/sh
# Runs the program `replay` on the cases written from 01 (from_01/), and on changed copies of the sample: that it sees a
# difference, and refuses what is no sample. In a case of each call and cause every octet that it expects is changed by
# itself; and each part of a file is broken once.
set -eu
replay=${REPLAY:-crates/replay/out/replay}
sample=crates/replay/stdin
from_01=tests/replay/from_01
dir=$(mktemp -d)
trap 'rm -rf "$dir"' EXIT
count=0

# What replaying $dir/in writes ends in the line $2; `cases` stands in no other line.
says() {
    "$replay" <"$dir/in" >"$dir/out"
    if [ "$(tail -n 1 "$dir/out")" != "$2" ] || [ "$(grep -c cases "$dir/out")" != "$(echo "$2" | grep -c cases)" ]; then
        echo "replay: $1: the last line is not '$2'"
        tail -n 3 "$dir/out"
        exit 1
    fi
    count=$((count + 1))
}

# Octets by their numbers.
octets() {
    # shellcheck disable=SC2059
    printf "$(printf '\\%03o' "$@")"
}

# The front of a sample with $1 cases.
front() {
    octets 80 76 67 50 $(($1 % 256)) $(($1 / 256 % 256)) $(($1 / 65536 % 256)) 0
}

# The records of a file of lines.
lines() {
    # shellcheck disable=SC2046
    octets $(cat "$1")
}

# A sample of one case, that of call $1 with cause $2, whose octet at $3 is set to $4.
one() {
    awk -v call="$1" -v cause="$2" -v at="$3" -v to="$4" '$25 == call && $27 == cause { $(at + 1) = to; print; exit }' "$dir/short" >"$dir/line"
    { front 1; lines "$dir/line"; } >"$dir/in"
}

# One octet of a case is changed: what is said.
changed() {
    one "$1" "$2" "$3" "$4"
    says "call $1 with cause $2, octet $3 set to $4" "$5"
}

# The octets of a file of records, as text, one record to a line: $1 is a record's first octet.
records() {
    od -An -v -tu1 "$1" | awk '{
        for (i = 1; i <= NF; i++) {
            if (++n <= 8) continue
            line = line (line == "" ? "" : " ") $i
            if (++k > 16 && k <= 20) len += $i * 256 ^ (k - 17)
            if (k > 20 && k == len) { print line; line = ""; k = len = 0 }
        }
    }'
}

# Whether each record of a file of lines has the shape of its call: its parts follow each other to its end, and its numbers
# and inputs are those of the call's row. A number is a flag, an octet, or has 2, 4 or 8 octets; an input is a slice, an
# array of 6 or 8 octets, or none.
shaped() {
    awk 'BEGIN {
        split("- s--,- s--,- s--,- s--,- s--,- s--,l s--,ooffwwl ---,oofffoh s--,ooofffoooh s--,oooffooo ---,ooo s--,h 66-,ooo ---,ffohhwwl ---,- 8--,ffooo 8s-,ffwwl 6--,offfo 66s,oofffooo 6s-,offooo 6--,ooo 66s", rows, ",")
        width["f"] = width["o"] = 1; width["h"] = 2; width["w"] = 4; width["l"] = 8
    }
    function word(at) { return $(at + 1) + 256 * ($(at + 2) + 256 * ($(at + 3) + 256 * $(at + 4))) }
    {
        call = $25; n = $29; known = call in rows
        split(rows[call], row, " ")
        kinds = row[1] == "-" ? "" : row[1]
        good = known && length(kinds) == n && word(0) == 30 + 8 * (n + $30) && word(16) == NF && (call > 7 || word(20) == 0)
        for (i = 0; good && i < n; i++) {
            kind = substr(kinds, i + 1, 1)
            for (k = width[kind]; k < 8; k++) if ($(31 + 8 * i + k)) good = 0
            if (kind == "f" && $(31 + 8 * i) > 1) good = 0
        }
        for (i = 0; good && i < 4; i++) {
            len = word(4 * i + 4) - word(4 * i); kind = substr(row[2], i + 1, 1)
            if (len < 0 || i < 3 && (kind == "-" && len || kind + 0 && len != kind + 0)) good = 0
        }
        if (!good) { print "record " NR " has not the shape of call " call; bad = 1 }
    }
    END { exit bad }' "$1"
}

# The cases written from 01, and that their records are those of the text.
records $from_01/records >"$dir/records"
written=$(($(wc -l <"$dir/records")))
shaped "$dir/records"
cp $from_01/records "$dir/in"
says 'the cases written from 01' "$written cases, 0 differ"
if command -v python3 >/dev/null; then
    python3 $from_01/make.py --check
    python3 $from_01/make.py --long >"$dir/in"
    says 'those with long payloads' '16 cases, 0 differ'
else
    echo "replay: that the records are those of $from_01/*.txt, and the cases with long payloads: not looked at, there is no python3"
    echo "skipped the records of the cases from 01, made anew (no python3)" >>"${SKIPS:-/dev/null}"
fi

records $sample >"$dir/records"
shaped "$dir/records"
# A short case of each call and cause, of each kind of frame that is read, and of a step with an entry and without one.
awk '{
    at = 31 + 8 * $29
    k = $25 " " $27 " " ($25 == 1 ? $at : $25 == 7 ? $30 : "")
    if (!(k in line) || NF < size[k]) { size[k] = NF; line[k] = $0 }
}
END { for (k in line) print line[k] }' "$dir/records" | sort >"$dir/short"


cases=$(($(wc -l <"$dir/records")))
few=$(($(wc -l <"$dir/short")))
cp "$sample" "$dir/in"
says 'the sample' "$cases cases, 0 differ"
{ front $few; lines "$dir/short"; } >"$dir/in"
says 'its short cases' "$few cases, 0 differ"

# Each expected octet by itself: the cause, `octet`, the values, and what comes out.
awk '{
    values = 30 + 8 * $29
    inputs = values + 8 * $30
    output = $13 + 256 * $14
    for (at = 26; at < NF; at++) {
        if (at == 28) at = values
        if (at == inputs) at = output
        if (at >= NF) break
        kept = $(at + 1)
        $(at + 1) = (kept + 1) % 256
        print
        $(at + 1) = kept
    }
}' "$dir/short" >"$dir/changed"
n=$(($(wc -l <"$dir/changed")))
{ front $n; lines "$dir/changed"; } >"$dir/in"
says 'every expected octet changed' "$n cases, $n differ"

# What is said of a difference: the case, the call, and which part of it.
changed 8 0 26 1 '1 cases, 1 differ'
grep -qx 'differs: case 1, call 8, cause 0' "$dir/out"
changed 4 5 27 254 '1 cases, 1 differ'
grep -qx 'differs: case 1, call 4, octet 0' "$dir/out"
changed 1 0 38 9 '1 cases, 1 differ'
grep -qx 'differs: case 1, call 1, value 1' "$dir/out"
changed 8 0 94 9 '1 cases, 1 differ'
grep -qx 'differs: case 1, call 8, output 0' "$dir/out"

# A record of another length than it says, a target that there is no space for, and a call that is none.
changed 8 0 16 200 'refused at case 1'
changed 8 0 17 1 'refused at case 1'
changed 8 0 22 200 'refused at case 1'
changed 8 0 24 0 'refused at case 1'
changed 8 0 24 23 'refused at case 1'

# A record whose shape is not its call's: where its parts begin and end, the call, how many numbers and values there are, a
# flag of 2, an octet above 255, and a reader with a target.
unshaped() {
    one "$1" 0 "$2" "$3"
    if shaped "$dir/line" >"$dir/out"; then
        echo "replay: call $1, octet $2 set to $3: the shape is taken for its call's"
        exit 1
    fi
    count=$((count + 1))
}
for at in 0 1 4 5 8 9 12 13 16 17 28 29; do
    unshaped 8 $at 200
done
for call in 0 9 23; do
    unshaped 8 24 $call
done
unshaped 8 46 2
unshaped 8 31 1
unshaped 1 20 1

# The front, the end and the number of cases.
none='refused: no PLC2, or too long'
: >"$dir/in"
says 'an empty file' "$none"
head -c 7 "$sample" >"$dir/in"
says 'seven octets' 'refused at case 1'
for mark in 'pLC2' 'PlC2' 'PLc2' 'PLC1'; do
    { printf %s "$mark"; tail -c +5 "$sample"; } >"$dir/in"
    says "the mark $mark" "$none"
done
{ front 0; lines "$dir/short"; } >"$dir/in"
says 'no cases, and records' 'refused at case 0'
head -c 8 "$sample" >"$dir/in"
says 'the front alone' 'refused at case 1'
head -c 9 "$sample" >"$dir/in"
says 'one octet of a record' 'refused at case 1'
size=$(($(wc -c <"$sample")))
head -c $((size - 1)) "$sample" >"$dir/in"
says 'one octet short' "refused at case $cases"
{ cat "$sample"; printf x; } >"$dir/in"
says 'one octet more' "refused at case $cases"
{ front $((cases - 1)); tail -c +9 "$sample"; } >"$dir/in"
says 'a case more than it says' "refused at case $((cases - 1))"
{ front $((cases + 1)); tail -c +9 "$sample"; } >"$dir/in"
says 'a case fewer than it says' "refused at case $((cases + 1))"
{ cat "$sample"; head -c 2097152 /dev/zero; } >"$dir/in"
says 'more than it holds' "$none"
# A difference in the last case: its cause.
at=$((size - $(tail -n 1 "$dir/records" | wc -w) + 26))
{ head -c $at "$sample"; octets 255; tail -c +$((at + 2)) "$sample"; } >"$dir/in"
says 'the last cause' "$cases cases, 1 differ"

echo "replay: $written cases written from 01 agree; $count files are told apart; each of $n expected octets, changed by itself, is a difference"
