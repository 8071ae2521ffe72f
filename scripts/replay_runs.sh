#!/bin/sh
# Runs target/bin/replay on each stored list (crates/replay/runs/NAME.list, written by scripts/replay_lists.py) and holds what it prints to
# NAME.out; then on a list of 1,048,576 bytes, the most that it takes, and on the same with a byte more. Before that it holds the list of
# vectors/ to the one that the program reads in the gate. Needs scripts/programs.sh first.
set -u
cd "$(dirname "$0")/.."
full=$(mktemp) || exit 1
printed=$(mktemp) || exit 1
trap 'rm -f "$full" "$printed"' EXIT
if ! cmp vectors/vectors.bin crates/replay/stdin; then
    echo "replay: vectors/vectors.bin is to be a copy of crates/replay/stdin"
    exit 1
fi
runs=0
failed=0
# run LIST LINE: the program prints the line for the list
run() {
    runs=$((runs + 1))
    target/bin/replay < "$1" > "$printed"
    if ! printf '%s\n' "$2" | cmp -s - "$printed"; then
        echo "differs: $1 gives '$(cat "$printed")', not '$2'"
        failed=$((failed + 1))
    fi
}
for list in crates/replay/runs/*.list; do
    run "$list" "$(cat "${list%.list}.out")"
done
# 127 records: the first of that list 126 times, and its second
limits=crates/replay/runs/right-at-limits.list
{
    printf '\177\0\0\0\0\0\0\0'
    for _ in $(seq 126); do
        head -c 8272 "$limits" | tail -c 8264
    done
    tail -c 7304 "$limits"
} > "$full"
[ "$(wc -c < "$full")" -eq 1048576 ] || exit 1
run "$full" "127 vectors, 0 differ"
printf '\0' >> "$full"
run "$full" "bad list at record 127"
echo "stored lists: $((runs - failed)) of $runs as stored"
[ "$runs" -gt 2 ] && [ "$failed" -eq 0 ]
