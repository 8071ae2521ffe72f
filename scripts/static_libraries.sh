#!/bin/sh
# Copies libqdesk.a, the library that C and Rust link, to target/staticlib. Where it is older than a file of the crates it is made first, by `rt lib`
# in the folder of the crate qdesk_c, which proves it and what it depends on. `rt ci` proves it, and makes no library.
set -eu
cd "$(dirname "$0")/.."
made=crates/qdesk_c/out/libqdesk_c.a
library=target/staticlib/libqdesk.a

if sh scripts/is_old.sh "$made"; then
    (cd crates/qdesk_c && rt lib)
fi
mkdir -p target/staticlib
if ! cmp -s "$made" "$library"; then
    cp "$made" "$library"
elif sh scripts/is_old.sh "$library"; then
    # Sources that were written again and make the same library are no reason for qdesk's build script to take it for an old one.
    touch "$library"
fi
echo "static library: target/staticlib has libqdesk.a"
