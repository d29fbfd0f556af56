#!/bin/sh
# Runs the program `demo` with a journal. Its listing has to be the entries of the simulated heads: each head's in order, from
# the first on, each once, and as many as the demo says were taken. What an entry holds is computed here a second time
# (crates/demo/src/entries.rt).
set -eu
demo=${DEMO:-crates/demo/out/demo}
journal=${JOURNAL:-crates/journal/out/journal}
dir=$(mktemp -d)
trap 'rm -rf "$dir"' EXIT

# What the demo says on standard error is $2; where it is killed, that is no message of its own.
says() {
    if ! printf "$2" | cmp -s - "$dir/errors"; then
        echo "demo: $1"
        cat "$dir/errors"
        exit 1
    fi
}

"$demo" "$dir/journal" >"$dir/out" 2>"$dir/errors"
says 'a journal is written' ''
grep -v '^records in the journal ' "$dir/out" | cmp - crates/demo/stdout
"$journal" <"$dir/journal" >"$dir/listing"
awk '
    # The table: what each head has raised. All of it is taken in the end, but for head 21, which is not registered.
    FNR == NR && NF == 10 && $1 + 0 > 0 && $2 !~ /[^0-9]/ { raised[$1] = $1 == 21 ? 0 : $2 }
    FNR == NR && /^records in the journal / { records = $5 + 0; taken = $8 + 0 }
    FNR == NR { next }
    FNR == 1 { head[7] = 0; head[21] = 1; head[120] = 2; head[239] = 3; head[200] = 4; next }
    {
        h = head[$1]
        n = count[$1]++
        line = sprintf("%d %04X %d %d %d %d %016X", $1, (n * 31 + h * 9000) % 65536, n % 3 + 1, (n * 7 + h) % 4096,
            1700000000 + n, n * 1000, n * 8 + h)
        if ($0 != line) { print "demo: the journal has", $0, "where the next of its head is", line; bad = 1; exit }
    }
    END {
        for (id in raised) if (count[id] + 0 != raised[id]) { print "demo: head " id ": " raised[id] " raised, " count[id] + 0 " in the journal"; bad = 1 }
        if (records != FNR - 1 || records != taken) { print "demo: it says " records " records and " taken " taken"; bad = 1 }
        if (!bad) print "demo: " records " records in the journal are what was taken, in order"
        exit bad
    }' "$dir/out" "$dir/listing"

# What fails is said, and once.
"$demo" "$dir/none/journal" >"$dir/out" 2>"$dir/errors"
says 'no such folder' "demo: $dir/none/journal: No such file or directory\n"
cmp /dev/null "$dir/out"
if [ -w /dev/full ]; then
    "$demo" /dev/full >"$dir/out" 2>"$dir/errors"
    says 'a full disk' 'demo: cannot write the journal\n'
    cmp /dev/null "$dir/out"
fi
(
    trap '' XFSZ
    ulimit -f 8
    "$demo" "$dir/cut" 2>"$dir/errors"
) | cat >"$dir/out"
says 'a disk that fills' 'demo: cannot write the journal\n'
cmp "$dir/out" crates/demo/stdout
"$demo" a b >"$dir/out" 2>"$dir/errors"
says 'two names' 'usage: demo [FILE]\nWith FILE, what the box hands out is written there as a journal.\n'
