#!/bin/sh
# Runs each command of README.md and examples/README.md (a line that begins with four blanks and a dollar sign) as it is printed there, and holds
# what it prints to the lines of its block below it, where there are any, empty ones among them. None leaves a file behind that git would show.
set -eu
cd "$(dirname "$0")/.."
folder=$(mktemp -d)
trap 'rm -rf "$folder"' EXIT

# The files that git neither has nor ignores; where this is no clone, none.
untracked() {
    git ls-files --others --exclude-standard 2>/dev/null || :
}

# Each command to N.command, and the block of lines below it to N.expected.
awk -v folder="$folder" '
    function expect(line) { print line > (folder "/" n ".expected") }
    /^    \$ / { n++; print substr($0, 7) > (folder "/" n ".command"); below = 1; empty = 0; next }
    /^    / && below { for (; empty > 0; empty--) expect(""); expect(substr($0, 5)); next }
    /^$/ && below { empty++; next }
    { below = 0 }
' README.md examples/README.md
untracked >"$folder/before"

n=0
while [ -f "$folder/$((n + 1)).command" ]; do
    n=$((n + 1))
    if ! sh "$folder/$n.command" > "$folder/printed"; then
        echo "README: fails: $(cat "$folder/$n.command")" >&2
        exit 1
    fi
    if [ -f "$folder/$n.expected" ] && ! diff -u "$folder/$n.expected" "$folder/printed"; then
        echo "README: prints something else: $(cat "$folder/$n.command")" >&2
        exit 1
    fi
done
untracked >"$folder/after"
if ! diff -u "$folder/before" "$folder/after"; then
    echo "README: a command leaves files behind" >&2
    exit 1
fi
echo "README: $n commands run as printed"
[ "$n" -gt 0 ]
