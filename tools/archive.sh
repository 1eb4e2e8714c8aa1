#!/usr/bin/env bash
# Builds target/libwagonplan.a, which has every call of include/wagonplan.h, and prints its name: the static library of the crate exports, which stands in
# crates/exports/out as libexports.a. WAGONPLAN_ARCHIVE may name one that is built already.
set -eu
cd "$(dirname "$0")/.."
if [ -z "${WAGONPLAN_ARCHIVE:-}" ]; then
    mkdir -p target/log
    (cd crates/exports && rt lib) >target/log/archive.txt 2>&1 || { tail -n 20 target/log/archive.txt >&2; exit 1; }
    cp crates/exports/out/libexports.a target/libwagonplan.a
fi
echo "${WAGONPLAN_ARCHIVE:-$PWD/target/libwagonplan.a}"
