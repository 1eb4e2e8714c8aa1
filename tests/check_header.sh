#!/usr/bin/env bash
# include/wagonplan.h alone, as C99, C11 and C++11, by gcc and clang, without a warning; and that the archive has its version and sizes.
set -eu
cd "$(dirname "$0")/.."
archive=$(tools/archive.sh)
mkdir -p target/tests
strict='-Wall -Wextra -pedantic -Wconversion -Wsign-conversion -Wshadow -Wcast-qual -Werror -O2 -Iinclude'
for by in "gcc -std=c99" "gcc -std=c11" "clang -std=c99" "clang -std=c11" "g++ -std=c++11" "clang++ -std=c++11"; do
    command -v "${by% *}" >/dev/null || { echo "no ${by% *}: not run"; exit 77; }
    [[ $by == *++* ]] && file=target/tests/header.cpp || file=target/tests/header.c
    printf '#include "wagonplan.h"\nint main(void) { return !wagonplan_fits(); }\n' >"$file"
    $by $strict -o target/tests/header "$file" "$archive"
    target/tests/header
    echo "$by: ok"
done
