#!/bin/sh
# groups.sh FILE: the rows that bench/run.sh wrote, by group, as docs/PERFORMANCE.md has them: how many there are, the least, the
# middle and the greatest ratio, and the rows above what is wanted.
set -eu
LC_ALL=C awk '
    function group(name) {
        if (name ~ /^read StatusResponse/) return "read a StatusResponse"
        if (name ~ /^read /) return "read a frame"
        if (name ~ /^refuse /) return "refuse a frame"
        if (name ~ /^write section/) return "write a section"
        if (name ~ /^write frame/) return "write a frame"
        if (name ~ /^new, /) return "make and write a frame"
        if (name ~ /^write StatusResponse/) return "write a StatusResponse"
        if (name ~ /^(raise|answer|reporter)/) return "head: raise, answer, read"
        return "box: register, read, request, take"
    }
    substr($0, 49) ~ /^ +[0-9.]+ +[0-9.]+ +[0-9.]+/ {
        name = substr($0, 1, 48)
        sub(/ +$/, "", name)
        split(substr($0, 49), value, " ")
        g = group(name)
        if (!(g in count)) order[++groups] = g
        at = ++count[g]
        for (; at > 1 && ratio[g, at - 1] + 0 > value[3] + 0; at--) ratio[g, at] = ratio[g, at - 1]
        ratio[g, at] = value[3]
        if (/above/) above[g]++
    }
    END {
        print "| group | rows | least | middle | greatest | above what is wanted |"
        print "|---|---|---|---|---|---|"
        for (i = 1; i <= groups; i++) {
            g = order[i]
            n = count[g]
            printf "| %s | %d | %s | %s | %s | %d |\n", g, n, ratio[g, 1], ratio[g, int((n + 1) / 2)], ratio[g, n], above[g]
        }
    }' "$1"
