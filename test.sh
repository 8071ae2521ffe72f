#!/bin/sh
# The tests. Needs rt of the version in rattle-version, cargo, rustc, cc, c++, nm and the original source (rust/README.md); nothing is fetched.
#
#     sh test.sh          the verdict: `rt ci` proves everything from nothing (what an earlier run on this machine proved it knows by its checksums)
#                         and tries the must-fail edits, and the rest runs on the programs that it built. Where all of it passes, the last line
#                         is rt's own 'N passed, 0 failed'
#     sh test.sh quick    for every day: proves what changed, tries no must-fail edit, and runs the rest
set -eu
cd "$(dirname "$0")"
usage="usage: sh test.sh [quick]"
case ${1:-} in
'' | quick) ;;
--help)
    echo "$usage"
    exit 0
    ;;
*)
    echo "$usage" >&2
    exit 2
    ;;
esac

# Runs a command. Where it fails, the last line says so.
run() {
    "$@" || { echo "FAILED: $*"; exit 1; }
}

# Proves everything from nothing, and keeps rt's last line for the end. A must-fail edit that could not be applied or read shows nothing of a
# contract, and rt passes it.
prove_from_nothing() {
    kept=$(mktemp -d)
    trap 'rm -rf "$kept"' EXIT
    { rt ci && : >"$kept/passed"; } | tee "$kept/printed" | sed '$d'
    verdict=$(tail -n 1 "$kept/printed")
    [ -f "$kept/passed" ] || { echo "$verdict"; echo "FAILED: rt ci"; exit 1; }
    if grep -q '^rt: ok.*, [0-9][0-9]* bad' "$kept/printed" || ! grep -q '^rt: ok' "$kept/printed"; then
        echo "FAILED: rt ci: its line 'rt: ok' is missing, or tells of bad must-fail edits"
        exit 1
    fi
}

run sh scripts/tools_at_hand.sh
run sh scripts/tools_tests.sh

# The source is asked for first: a run that compares nothing with it is no pass, unless the caller wants it so.
compared=yes
if ! cargo run --offline --quiet --manifest-path rust/Cargo.toml --bin oracle source; then
    compared=no
    if [ "${GO_ON_WITHOUT_THE_SOURCE:-}" != yes ]; then
        echo "FAILED: without the source nothing is compared with it; to go on all the same, set GO_ON_WITHOUT_THE_SOURCE to yes"
        exit 1
    fi
fi

if [ "${1:-}" = quick ]; then
    run rt all check
    verdict="quick: passed; no must-fail edit was tried, and the verdict is that of \`sh test.sh\`"
else
    prove_from_nothing
fi
run sh scripts/programs.sh
run sh scripts/static_libraries.sh
for stored in scripts/*_runs.sh; do
    run sh "$stored"
done
run cargo test --offline --quiet --manifest-path rust/Cargo.toml --workspace
run sh scripts/examples.sh
run sh scripts/c_tests.sh
run sh scripts/readme_commands.sh

if [ "$compared" = no ]; then
    echo "NOTHING WAS COMPARED WITH THE SOURCE: it is not at hand, and GO_ON_WITHOUT_THE_SOURCE said to go on"
fi
echo "$verdict"
