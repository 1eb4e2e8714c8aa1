#!/usr/bin/env bash
# What the gate holds of the tree itself: crates.txt lists every crate, no Rattle text stands outside a crate, no proof has a
# hole, every public function has an `ensures`, no refused call touches a double that it is lent, no limit's
# number stands outside crates/limits, no line of code or contract is longer than 300 characters. That every file is in the layout of `rt fmt` is seen by `rt ci`,
# which refuses a crate that isn't.
set -u
cd "$(dirname "$0")/.." || exit 1
bad=0
say() { echo "$1"; bad=1; }

for d in crates/*/; do
    n=$(basename "$d")
    grep -qE "^$n( staticlib)?:" crates.txt || say "crates/$n is not in crates.txt"
done
stray=$(git ls-files '*.rt' '*.antt' | grep -v '^crates/')
[ -z "$stray" ] || say "Rattle text outside crates/: $stray"
holes=$(grep -rnE '(=|\()[[:space:]]*\?[a-z0-9]*[[:space:]]*(\)|$)' crates --include=*.antt --exclude-dir=out)
[ -z "$holes" ] || say "holes: $holes"
silent=$(awk '
    function flush() { if (name != "" && !seen) print where; name = "" }
    FNR == 1 { flush() }
    /^[ \t]*pub (extern "C" )?fn / { flush(); name = $0; where = FILENAME ":" FNR ": " $0; seen = 0; next }
    /ensures/ { seen = 1 }
    /^[ \t]*(fn |impl |mod |struct |enum |const |#\[)/ { flush() }
    END { flush() }' $(git ls-files 'crates/*/src/*.rt'))
[ -z "$silent" ] || say "public functions that promise nothing: $silent"
touched=$(tools/check_refusals.py) || say "$touched"
literal=$(tools/check_limits.py) || say "$literal"
long=$(git ls-files 'crates/*/src/*.rt' | LC_ALL=C.UTF-8 xargs grep -nE '^.{301}' | cut -c1-60)
[ -z "$long" ] || say "lines longer than 300 characters: $long"
exit $bad
