#!/usr/bin/env bash
# Builds tests/replay.c over the archive and replays calls (docs/REPLAY.md).
#   tests/replay.sh                    the stored lists
#   tests/replay.sh --valgrind         their lines of up to 1,500 bytes, under valgrind (status 77 where that is not there)
#   tests/replay.sh --stack            the stored lists, and how much stack each call takes
#   tests/replay.sh --fast-math        the stored lists, from a host that is compiled and linked with -ffast-math
#   tests/replay.sh KIND COUNT SEED    seeded calls of tests/make/all.py
#   tests/replay.sh --build            builds it, and no more
set -euo pipefail
cd "$(dirname "$0")/.."
archive=$(tools/archive.sh)
mkdir -p target/tests
build() { gcc -std=c11 -O2 -g -Wall -Wextra -Werror -D_GNU_SOURCE -Iinclude "${@:2}" -o "target/tests/$1" tests/replay.c "$archive" -lpthread; }
build replay
case ${1:-} in
--build) ;;
'') target/tests/replay tests/lists/*.txt ;;
--stack) target/tests/replay --stack tests/lists/*.txt ;;
--fast-math)
    build replay-fast -ffast-math
    target/tests/replay-fast tests/lists/*.txt
    ;;
--valgrind)
    command -v valgrind >/dev/null || { echo "no valgrind: not run"; exit 77; }
    valgrind --quiet --error-exitcode=1 target/tests/replay --short 1500 tests/lists/*.txt
    ;;
*) tests/make/all.py "$@" | target/tests/replay ;;
esac
