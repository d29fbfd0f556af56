#!/bin/sh
# Every folder of crates/ is a crate that crates.txt lists.
status=0
for dir in crates/*/; do
    name=$(basename "$dir")
    if ! grep -q "^$name[ :]" crates.txt; then
        echo "crates/$name is not listed in crates.txt"
        status=1
    fi
done
exit $status
