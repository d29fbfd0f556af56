#!/bin/sh
# Whether the comparison can run: 0, or 3 with what is missing. POWERLINK_RS names the folder that holds the sources,
# crates/powerlink-rs/src/..; by default it lies beside the repository.
from=${POWERLINK_RS:-../shared/docs/src}
if [ ! -f "$from/crates/powerlink-rs/src/frame/codec.rs" ]; then
    echo "sources of powerlink-rs in $from, see POWERLINK_RS"
    exit 3
fi
for program in rustc cc; do
    if ! command -v "$program" >/dev/null; then
        echo "$program"
        exit 3
    fi
done
