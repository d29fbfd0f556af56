#!/bin/sh
# run.sh: builds the archive if it is missing or older than a crate; compiles the header as C and as C++, and runs the C
# programs against header and archive.
set -eu
cd "$(dirname "$0")/../.."
tests/archive.sh
lib=target/staticlib/libpowerlink.a
out=$(mktemp -d)
trap 'rm -rf "$out"' EXIT
warned='-Wall -Wextra -Wpedantic -Werror -Iinclude'

# What is left out for want of a program, told to the gate, which names it.
skip() {
    echo "tests/c: $1: left out, there is no $2"
    echo "skipped $1 (no $2)" >> "${SKIPS:-/dev/null}"
}

# The header by itself, with each compiler that is here.
echo '#include "powerlink.h"' > "$out/header.c"
cp "$out/header.c" "$out/header.cc"
for standard in c99 c11; do
    for cc in cc gcc clang; do
        if command -v "$cc" > /dev/null; then
            "$cc" "-std=$standard" $warned -fsyntax-only "$out/header.c"
        fi
    done
done
for standard in c++11 c++17; do
    for cxx in c++ g++ clang++; do
        if command -v "$cxx" > /dev/null; then
            "$cxx" "-std=$standard" $warned -fsyntax-only "$out/header.cc"
        fi
    done
done

# A C++ program links: the names are those of C.
if command -v c++ > /dev/null; then
    printf '%s\n' '#include "powerlink.h"' \
        'int main() { static uint8_t s[POWERLINK_COLLECTOR_LEN]; return powerlink_collector_new(s); }' > "$out/link.cc"
    c++ -std=c++11 $warned "$out/link.cc" "$lib" -o "$out/link"
    "$out/link"
else
    skip 'a program in C++' c++
fi

# The archive asks for nothing but what the header says.
if ! command -v nm > /dev/null; then
    skip 'what the archive calls' nm
elif nm -u "$lib" | grep ' U ' | grep -v -e ' memset$' -e ' memmove$' -e ' memcpy$'; then
    echo "tests/c: the archive calls more than memset, memmove and memcpy"
    exit 1
fi

# A header of another version than the archive's does not link: of the first one, each call that has changed since.
mkdir "$out/other"
sed 's/^\(#define powerlink_[a-z_]*_new .*\)_v[0-9]*$/\1_v1/; s/^\(#define powerlink_[a-z_]* .*\)_v[2-9][0-9]*$/\1/' include/powerlink.h > "$out/other/powerlink.h"
for call in $(sed -n 's/^#define \(powerlink_[a-z_]*\) powerlink_.*_v[0-9]*$/\1/p' include/powerlink.h); do
    printf '%s\n' '#include "powerlink.h"' 'static void (*volatile called)(void);' \
        "int main(void) { called = (void (*)(void))$call; return called == 0; }" > "$out/pair.c"
    cc -std=c99 -Iinclude "$out/pair.c" "$lib" -o "$out/pair"
    if cc -std=c99 "-I$out/other" "$out/pair.c" "$lib" -o "$out/pair" 2> "$out/undefined"; then
        echo "tests/c: $call of another version links"
        exit 1
    fi
    grep -q "$call" "$out/undefined"
done
echo 'a header of another version does not link'

for program in calls services status_entries host_frames restarts host_loop any_header journal; do
    cc -std=c99 $warned "tests/c/$program.c" "$lib" -o "$out/$program"
done
"$out/calls"
"$out/services"
"$out/status_entries"
"$out/host_frames"
"$out/restarts"
mkdir "$out/host"
"$out/host_loop" "$out/host"
"$out/any_header"
"$out/journal" > "$out/plb"

# Journals, as the program `journal` lists them.
if [ ! -x crates/journal/out/journal ]; then
    skip 'the journals of C programs, listed' 'crates/journal/out/journal: tests/program.sh journal'
    exit 0
fi
lists() {
    printf '%s\n' 'node code mode profile sec nsec info' "$@" > "$out/expected"
    crates/journal/out/journal < "$out/in" | diff "$out/expected" -
}
first='7 1234 1 2 5 6 0000000000000000'
second='1 ABCD 2 4095 4294967295 6 0123456789ABCDEF'
third='239 0000 3 0 0 6 FFFFFFFFFFFFFFFF'

cp "$out/plb" "$out/in"
lists "$first" "$second" "$third"
echo 'a journal of 3 records is listed'
# Nine octets of the first record, then all three.
{ head -c 14 "$out/plb"; tail -c +6 "$out/plb"; } > "$out/in"
lists '7 1234 1 2 5 881852935 0000060000000512' 'refused 19'
echo 'a torn record with records behind it is listed as a fault that nobody raised'
cat "$out/plb" "$out/plb" > "$out/in"
lists "$first" "$second" "$third" 'refused 19'
echo 'two journals joined end in 19'
