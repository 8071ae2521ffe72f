#!/bin/sh
# Whether the file of this name is missing, or older than a file that the crates are made from.
set -eu
cd "$(dirname "$0")/.."
[ ! -f "$1" ] || [ -n "$(find crates.txt rattle-version crates/*/src crates/*/specs crates/*/proofs -newer "$1" | head -n 1)" ]
