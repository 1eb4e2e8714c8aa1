#!/usr/bin/env bash
# Builds target/bin/wagonplan and prints its name: `rt run` proves the crate wagonplan and what it stands on, over what earlier runs kept, builds it, and
# runs it on the job in crates/wagonplan/stdin, which it must answer by stdout. WAGONPLAN may name one that is built already. With --show what rt says is
# shown too, on standard error.
set -euo pipefail
cd "$(dirname "$0")/.."
if [ -z "${WAGONPLAN:-}" ]; then
    mkdir -p target/log target/bin
    log=target/log/program.txt
    shown=/dev/null
    [ "${1:-}" != --show ] || shown=/dev/stderr
    if ! (cd crates/wagonplan && rt run <stdin 2>&1 >../../target/log/answer) | tee "$log" >"$shown" || ! cmp target/log/answer crates/wagonplan/stdout >>"$log" 2>&1; then
        tail -n 20 "$log" >&2
        exit 1
    fi
    cp crates/wagonplan/out/wagonplan target/bin/wagonplan
fi
echo "${WAGONPLAN:-$PWD/target/bin/wagonplan}"
