#!/bin/sh
# Compiles examples/c/layout.c with include/qdesk.h as C and as C++, runs both, and holds what they print to examples/c/layout.out. Needs
# scripts/static_libraries.sh first.
set -eu
cd "$(dirname "$0")/.."
library=target/staticlib/libqdesk.a
built=target/c_example
if [ ! -f "$library" ]; then
    echo "c_example: no $library: run \`sh scripts/static_libraries.sh\`" >&2
    exit 1
fi
mkdir -p "$built"

# Runs the program of this name and compares. Output that is lost is told by the status.
as_stored() {
    "$built/$1" > "$built/$1.out"
    diff -u examples/c/layout.out "$built/$1.out"
    if "$built/$1" > /dev/full 2> "$built/$1.err"; then
        echo "c_example: output is lost, and the status is 0" >&2
        exit 1
    fi
}

"${CC:-cc}" -std=c11 -Wall -Wextra -Wpedantic -Werror -Iinclude examples/c/layout.c "$library" -o "$built/c"
as_stored c
"${CXX:-c++}" -x c++ -std=c++11 -Wall -Wextra -Wpedantic -Werror -Iinclude examples/c/layout.c -x none "$library" -o "$built/cpp"
as_stored cpp
echo "C example: prints what is stored, as C and as C++"
