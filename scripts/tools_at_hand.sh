#!/bin/sh
# Says which of the programs that the tests need are missing, and whether `rt` is the version that proves this repository (rattle-version).
set -eu
cd "$(dirname "$0")/.."

missing=
for tool in rt cargo rustc nm "${CC:-cc}" "${CXX:-c++}"; do
    command -v "$tool" >/dev/null || missing="$missing $tool"
done
if [ -n "$missing" ]; then
    echo "tools: not found:$missing" >&2
    exit 1
fi

version=$(rt version)
pinned=$(cat rattle-version)
if [ "$version" != "$pinned" ]; then
    echo "tools: \`rt version\` says '$version', and this repository is proved with '$pinned': write the other line into rattle-version to try it" >&2
    exit 1
fi
