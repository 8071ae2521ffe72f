#!/bin/sh
# Compiles the headers alone by every compiler at hand, as the oldest C and C++ that they are for and as later ones. Compiles and runs the C tests
# (tests/c) as C and as C++, without and with the compiler's checks of addresses and undefined behaviour, where it has them. Tells where the library
# asks its user for another name than memset. Needs scripts/static_libraries.sh first.
set -eu
cd "$(dirname "$0")/.."
built=target/c_tests
checks='-fsanitize=address,undefined -fno-sanitize-recover=all'
mkdir -p "$built"
echo 'int main(void) { return 0; }' >"$built/empty.c"
runs=0

# Compiles the test by this compiler with these words, and runs it.
try() { # NAME COMPILER WORDS...
    name=$1 compiler=$2
    shift 2
    "$compiler" "$@" -Wall -Wextra -Wpedantic -Werror -Iinclude "tests/c/$name.c" -x none target/staticlib/libqdesk.a -o "$built/$name"
    ASAN_OPTIONS=detect_leaks=0 "$built/$name"
    runs=$((runs + 1))
}

# The same without and with the checks.
try_both() { # NAME COMPILER WORDS...
    try "$@"
    # shellcheck disable=SC2086
    if "$2" $checks "$built/empty.c" -o "$built/empty" 2>"$built/empty.log"; then
        try "$@" $checks
    else
        echo "C tests: $2 has no $checks"
    fi
}

# Compiles the headers, each included twice, with no word of complaint.
header() { # LANGUAGE STANDARD COMPILERS...
    language=$1 standard=$2
    shift 2
    for compiler; do
        if command -v "$compiler" >/dev/null; then
            "$compiler" -x "$language" "-std=$standard" -Wall -Wextra -pedantic -Werror -fsyntax-only -Iinclude "$built/header.c"
            headers=$((headers + 1))
        fi
    done
}

printf '#include "%s.h"\n' qdesk_kinds qdesk qdesk_kinds qdesk >"$built/header.c"
headers=0
for standard in c99 c11 c17; do
    header c $standard "${CC:-cc}" gcc clang
done
for standard in c++11 c++17; do
    header c++ $standard "${CXX:-c++}" g++ clang++
done

asked=$(nm -u target/staticlib/libqdesk.a | sed -n 's/^ *U //p' | sort -u)
if [ "$asked" != memset ]; then
    echo "C tests: the library asks for these names, and not for memset alone:" $asked >&2
    exit 1
fi

for test in tests/c/*.c; do
    try_both "$(basename "$test" .c)" "${CC:-cc}" -std=c11
    try_both "$(basename "$test" .c)" "${CXX:-c++}" -x c++ -std=c++11
done
echo "C tests: the headers compile in $headers ways, $runs runs passed"
