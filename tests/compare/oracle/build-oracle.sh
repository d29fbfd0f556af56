#!/bin/sh
# build-oracle.sh SRC OUT: builds the 15 files of powerlink-rs, unchanged, with the stubs beside this script for the modules
# that did not come with them. SRC/crates/powerlink-rs/src holds the files, which must be those of commit 3984eaf980 (SHA256
# beside this script); OUT gets the tree and OUT/{debug,release}/lib{log,powerlink_rs}.rlib. Needs rustc alone.
set -eu
here=$(cd "$(dirname "$0")" && pwd)
src=$1/crates/powerlink-rs/src
mkdir -p "$2"
out=$(cd "$2" && pwd)
tree=$out/tree
files="types common hal pdo/mapping nmt/states frame/mod frame/basic frame/codec
frame/control/soc frame/control/soa frame/control/asnd frame/control/status_response
frame/error/status_response frame/poll/preq frame/poll/pres"

rm -rf "$tree"
mkdir -p "$tree"
cp -R "$here/stubs/src/." "$tree/"
for f in $files; do
    if [ -e "$tree/$f.rs" ]; then
        echo "the stub $f.rs stands in the place of a file of powerlink-rs" >&2
        exit 1
    fi
    cp "$src/$f.rs" "$tree/$f.rs"
done
(cd "$tree" && sha256sum --quiet -c "$here/SHA256")

# debug checks overflow, so that a sum that wraps ends the run; release is what is timed
build() {
    dir=$out/$1
    shift
    mkdir -p "$dir"
    rustc --edition 2024 "$@" --crate-type rlib --crate-name log "$here/stubs/log/lib.rs" -o "$dir/liblog.rlib"
    rustc --edition 2024 "$@" --crate-type rlib --crate-name powerlink_rs --extern log="$dir/liblog.rlib" \
        "$tree/lib.rs" -o "$dir/libpowerlink_rs.rlib"
}
build debug -C opt-level=1 -C debug-assertions=on -C overflow-checks=on
build release -C opt-level=3
echo "powerlink-rs: built ($(wc -l <"$here/SHA256") files, unchanged)"
