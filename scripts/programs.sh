#!/bin/sh
# Copies the programs desk, report and replay, or those of the names that follow, to target/bin. One that is older than a file of the crates is
# made first, by `rt run` in its crate's folder, which proves it and what it depends on. `rt ci` makes all three.
set -eu
cd "$(dirname "$0")/.."
mkdir -p target/bin
if [ $# -eq 0 ]; then
    set -- desk report replay
fi

for name; do
    made=crates/$name/out/$name
    if sh scripts/is_old.sh "$made"; then
        (cd "crates/$name" && rt run </dev/null >/dev/null)
    fi
    cp "$made" target/bin/
done
echo "programs: target/bin has $*"
