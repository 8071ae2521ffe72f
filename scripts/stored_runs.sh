#!/bin/sh
# Runs target/bin/desk on each stored job (crates/desk/runs/NAME.job) and target/bin/report on each stored book (crates/report/runs/NAME.book),
# and holds what they print to NAME.out. Needs scripts/programs.sh first.
set -u
cd "$(dirname "$0")/.."
all=0

# stored PROGRAM KIND: the program on each stored input of the kind
stored() {
    runs=0
    failed=0
    for input in "crates/$1/runs"/*."$2"; do
        runs=$((runs + 1))
        if ! "target/bin/$1" < "$input" | cmp -s - "${input%."$2"}.out"; then
            echo "differs: $input"
            failed=$((failed + 1))
        fi
    done
    echo "stored $2s: $((runs - failed)) of $runs as stored"
    [ "$runs" -gt 0 ] && [ "$failed" -eq 0 ] || all=1
}

stored desk job
stored report book
exit "$all"
