#!/bin/sh
# seconds.sh LOG: after how many seconds of a gate each crate was proved, or found to be kept: a line `seconds CRATE AFTER` for each, the
# last first. LOG has what rt said, each line with the seconds in front. rt says of no crate how long it took, and works on several at a
# time.
set -eu
LC_ALL=C awk '
    $2 == "rt:" && ($4 == "proved" || $4 == "is" && $5 == "kept:") && $3 ~ /^[a-z_0-9]+$/ { after[$3] = $1 }
    END { for (name in after) print after[name], "seconds", name, after[name] }' "$1" | sort -rn | sed 's/^[^ ]* //'
