#!/bin/sh
# Runs the program `journal` on journals that are written here octet by octet; the listings were written by hand from 01.
set -eu
journal=${JOURNAL:-crates/journal/out/journal}
dir=$(mktemp -d)
trap 'rm -rf "$dir"' EXIT
count=0

# The listing of $dir/in is $dir/expected, with nothing on standard error.
same() {
    if ! "$journal" <"$dir/in" >"$dir/listed" 2>"$dir/errors" || ! cmp -s "$dir/expected" "$dir/listed" || [ -s "$dir/errors" ]; then
        echo "journal: $1"
        diff "$dir/expected" "$dir/listed" || cat "$dir/errors"
        exit 1
    fi
    count=$((count + 1))
}

# The same, for lines that are given.
lists() {
    name=$1
    shift
    printf '%s\n' "$@" >"$dir/expected"
    same "$name"
}

# Octets, as printf has them, in octal.
journal() {
    : >"$dir/in"
    for octets in "$@"; do
        printf "$octets" >>"$dir/in"
    done
}

start='PLB\001\000'
header='node code mode profile sec nsec info'
zeros='\000\000\000\000\000\000\000\000'
# Node 7, type 5002h, code 1234h, 5 seconds, 6 nanoseconds: 01's example.
entry='\002\120\064\022\005\000\000\000\006\000\000\000'$zeros
# The largest of every field, bits 15 and 14 of the type set too.
largest='\357\377\377\377\377\377\377\377\377\377\377\377\377\377\377\377\377\377\377\377\377'

journal "$start" '\007' "$entry"
lists "01's example" "$header" '7 1234 1 2 5 6 0000000000000000'

journal
lists 'empty' 'refused 17'
journal 'PLB\001'
lists 'four octets' 'refused 17'
journal 'PLC\001\000' '\007' "$entry"
lists 'a wrong mark' 'refused 17'
journal 'pLB\001\000'
lists 'a small letter in the mark' 'refused 17'
journal 'PlB\001\000'
lists 'a small letter in the mark' 'refused 17'
journal 'PLC\002\000'
lists 'a wrong mark before a wrong version' 'refused 17'
journal 'PLB\002\000' '\007' "$entry"
lists 'version 2' 'refused 18'
journal 'PLB\000\001' '\007' "$entry"
lists 'version 256' 'refused 18'
journal 'PLB\000\000'
lists 'version 0' 'refused 18'
journal 'PLB\001\001'
lists 'version 257' 'refused 18'
journal "$start"
lists 'the header alone' "$header"

journal "$start" '\007' "$entry" '\010' "$entry" '\011\002\120\064\022\005\000\000\000\006\000\000\000\000\000\000\000\000\000\000'
lists 'a third record of 20 octets' "$header" '7 1234 1 2 5 6 0000000000000000' '8 1234 1 2 5 6 0000000000000000' 'refused 19'
journal "$start" '\007'
lists 'one octet of a first record' "$header" 'refused 19'
journal "$start" '\007\002\120\064\022\005\000\000\000\006\000\000\000\000\000\000\000\000\000\000'
lists '20 octets of a first record' "$header" 'refused 19'

journal "$start" '\007' "$entry" '\007\002\300\064\022\005\000\000\000\006\000\000\000'"$zeros" '\007' "$entry"
lists 'mode 0 with bits 15 and 14 set' "$header" '7 1234 1 2 5 6 0000000000000000' 'refused 19'
journal "$start" '\000' "$entry"
lists 'ID 0' "$header" 'refused 19'
journal "$start" '\001' "$entry" '\357' "$entry"
lists 'IDs 1 and 239' "$header" '1 1234 1 2 5 6 0000000000000000' '239 1234 1 2 5 6 0000000000000000'
journal "$start" '\001' "$entry" '\360' "$entry" '\002' "$entry"
lists 'ID 240' "$header" '1 1234 1 2 5 6 0000000000000000' 'refused 19'
journal "$start" '\377' "$entry"
lists 'ID 255' "$header" 'refused 19'

# Code CDABh; seconds 04030201h, nanoseconds 08070605h; information from EFh, the lowest octet, to 09h.
journal "$start" '\052\270\152\253\315\001\002\003\004\005\006\007\010\357\315\253\220\170\126\064\011'
lists 'unequal octets' "$header" '42 CDAB 2 2744 67305985 134678021 0934567890ABCDEF'
journal "$start" '\001\000\020\315\253\000\000\000\000\000\000\000\000\020\062\124\166\230\272\334\376' \
    '\001\000\020\376\332\000\000\000\000\000\000\000\000\357\276\255\336\376\312\272\013' '\001\000\020\357\276\000\000\000\000\000\000\000\000'"$zeros"
lists 'all digits from A to F' "$header" '1 ABCD 1 0 0 0 FEDCBA9876543210' '1 DAFE 1 0 0 0 0BBACAFEDEADBEEF' '1 BEEF 1 0 0 0 0000000000000000'
journal "$start" "$largest"
lists 'the longest line' "$header" '239 FFFF 3 4095 4294967295 4294967295 FFFFFFFFFFFFFFFF'
journal "$start" '\001\000\020\000\000\000\000\000\000\000\000\000\000'"$zeros"
lists 'the shortest line' "$header" '1 0000 1 0 0 0 0000000000000000'
journal "$start" '\012\011\060\000\000\011\000\000\000\144\000\000\000'"$zeros" '\143\012\040\000\000\012\000\000\000\143\000\000\000'"$zeros"
lists 'numbers beside a power of ten' "$header" '10 0000 3 9 9 100 0000000000000000' '99 0000 2 10 10 99 0000000000000000'

# 3,121 records are 65,546 octets, more than a buffer of 65,536: the last one lies across two reads.
journal "$start"
echo "$header" >"$dir/many"
i=0
while [ $i -lt 3121 ]; do
    printf "\\007\\002\\120\\064\\022\\$(printf %03o $((i % 256)))\\$(printf %03o $((i / 256)))\\000\\000\\006\\000\\000\\000$zeros"
    echo "7 1234 1 2 $i 6 0000000000000000" >>"$dir/many"
    i=$((i + 1))
done >>"$dir/in"
cp "$dir/in" "$dir/long"
cp "$dir/many" "$dir/expected"
same 'a record across two reads'
head -c 65537 "$dir/long" >"$dir/in"
{ head -n 3121 "$dir/many"; echo 'refused 19'; } >"$dir/expected"
same 'one octet more than a buffer'
head -c 65536 "$dir/long" >"$dir/in"
same 'as many octets as a buffer has'
head -c 65525 "$dir/long" >"$dir/in"
head -n 3121 "$dir/many" >"$dir/expected"
same 'whole records that nearly fill a buffer'

# Octets that come one by one.
{
    for octet in P L B '\001' '\000' '\007' '\002' '\120' '\064' '\022' '\005' '\000' '\000' '\000' '\006' '\000' '\000' '\000' \
        '\000' '\000' '\000' '\000' '\000' '\000' '\000' '\000' '\010'; do
        printf "$octet"
        sleep 0.01
    done
} | "$journal" >"$dir/listed" 2>"$dir/errors"
printf '%s\n' "$header" '7 1234 1 2 5 6 0000000000000000' 'refused 19' | cmp - "$dir/listed"
cmp /dev/null "$dir/errors"
count=$((count + 1))

# What fails is said on standard error, once; a reader that goes away is no failure.
"$journal" <"$dir" >"$dir/listed" 2>"$dir/errors"
echo 'journal: cannot read' | cmp - "$dir/errors"
cmp /dev/null "$dir/listed"
{
    cat "$dir/long"
    for _ in 1 2 3 4 5 6 7 8 9; do
        tail -c +6 "$dir/long"
    done
} >"$dir/in"
if [ -w /dev/full ]; then
    "$journal" <"$dir/in" >/dev/full 2>"$dir/errors"
    echo 'journal: cannot write' | cmp - "$dir/errors"
fi
"$journal" <"$dir/in" 2>"$dir/errors" | head -n 1 >/dev/null
cmp /dev/null "$dir/errors"
(
    trap '' PIPE
    "$journal" <"$dir/in" 2>"$dir/errors" | head -n 1 >/dev/null
)
# A program in Rattle ignores the signal of a closed pipe however it was started, so that this is as above.
cmp /dev/null "$dir/errors"

echo "journal: $count listings are as written by hand"
"$(dirname "$0")/demo.sh"
