#!/bin/sh
# Turns each example (examples/NAME.job.txt, NAME.book.txt) into bytes, holds what target/bin/desk or target/bin/report prints for them to
# NAME.out, and holds the example to the readable form of the bytes. Needs cargo, and scripts/programs.sh first.
set -u
cd "$(dirname "$0")/.."
cargo build --offline --quiet --manifest-path rust/Cargo.toml -p job_text || exit 1
tools=${CARGO_TARGET_DIR:-rust/target}/debug
bytes=$(mktemp) || exit 1
trap 'rm -f "$bytes"' EXIT
examples=0
stored=0

# The forms with this ending, by the tool of this name; the program prints what is stored.
try() { # ENDING TOOL PROGRAM
    for form in examples/*"$1"; do
        examples=$((examples + 1))
        if ! "$tools/$2" to-bytes < "$form" > "$bytes"; then
            echo "not a readable form: $form"
        elif ! "$3" < "$bytes" | cmp -s - "${form%"$1"}.out"; then
            echo "what is printed differs: $form"
        elif ! "$tools/$2" to-text < "$bytes" | cmp -s - "$form"; then
            echo "not as to-text writes it: $form"
        else
            stored=$((stored + 1))
        fi
    done
}

try .job.txt job target/bin/desk
try .book.txt book target/bin/report
echo "examples: $stored of $examples as stored"
[ "$examples" -gt 0 ] && [ "$stored" -eq "$examples" ]
