#!/bin/sh
# Holds scripts/tools_at_hand.sh to what it says where a program is missing and where `rt` is of another version.
set -eu
cd "$(dirname "$0")/.."
folder=$(mktemp -d)
trap 'rm -rf "$folder"' EXIT

# The script fails where these variables are so, and says this.
fails() { # WORDS VARIABLES...
    words=$1
    shift
    if env "$@" sh scripts/tools_at_hand.sh 2>"$folder/said" || ! grep -qF "$words" "$folder/said"; then
        echo "tools tests: it should fail and say: $words" >&2
        cat "$folder/said" >&2
        exit 1
    fi
}

mkdir "$folder/few" "$folder/other"
for tool in sh dirname cat rt rustc nm; do
    ln -s "$(command -v $tool)" "$folder/few/$tool"
done
fails "tools: not found: cargo no-such-compiler c++" PATH="$folder/few" CC=no-such-compiler CXX=c++

printf '#!/bin/sh\necho another kit\n' >"$folder/other/rt"
chmod +x "$folder/other/rt"
fails "tools: \`rt version\` says 'another kit', and this repository is proved with '$(cat rattle-version)'" PATH="$folder/other:$PATH"
echo "tools tests: passed"
