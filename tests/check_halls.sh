#!/usr/bin/env bash
# Tests tools/hall, tools/plan and tools/show_hall.sh: each hall of examples/halls through the program to words, which must be those stored beside it (with
# --write they are stored), then tests/check_halls.py, then the plans in a browser where one is installed. WAGONPLAN may name another program,
# WAGONPLAN_ARCHIVE an archive that is built already.
set -eu
cd "$(dirname "$0")/.."
[ -x "${WAGONPLAN:-target/bin/wagonplan}" ] || { echo "there is no program ${WAGONPLAN:-target/bin/wagonplan}: run tools/program.sh first" >&2; exit 1; }
PYTHONPYCACHEPREFIX=$PWD/target/pycache python3 -m py_compile tools/hall tools/plan tools/halls/*.py tests/check_halls.py tests/look_at_plan.py
WAGONPLAN_ARCHIVE=$(tools/archive.sh)
export WAGONPLAN_ARCHIVE
mkdir -p target/halls
for hall in examples/halls/*.txt examples/halls/*.csv; do
    name=$(basename "${hall%.*}")
    tools/plan "$hall" --plan "target/halls/$name.svg" >"target/halls/$name.words"
    if [ "${1:-}" = --write ]; then cp "target/halls/$name.words" "${hall%.*}.words"; else cmp "target/halls/$name.words" "${hall%.*}.words"; fi
done
tests/check_halls.py
tests/look_at_plan.py target/halls/*.svg || [ $? -eq 77 ]
