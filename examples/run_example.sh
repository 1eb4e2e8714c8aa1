#!/usr/bin/env bash
# Links the hosts examples/example.c, examples/turns.c and examples/exchange.c to the archive and runs them, then again under valgrind (status 77 where that is not there).
set -eu
cd "$(dirname "$0")/.."
archive=$(tools/archive.sh)
mkdir -p target/examples target/log
for host in example turns exchange; do
    gcc -std=c99 -O2 -g -Wall -Wextra -pedantic -Werror -Iinclude -o "target/examples/$host" "examples/$host.c" "$archive" -lpthread
    "target/examples/$host"
done
command -v valgrind >/dev/null || { echo "no valgrind: not run under it"; exit 77; }
for host in example turns exchange; do
    valgrind --quiet --error-exitcode=1 --leak-check=full "target/examples/$host" >"target/log/valgrind-$host.txt"
done
echo "valgrind: nothing found"
