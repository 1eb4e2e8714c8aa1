#!/usr/bin/env bash
# With accesses and arithmetic checked (tests/checked_archive.sh): every stored call, then the record call and the other calls under libFuzzer,
# tests/fuzz.sh [RUNS] [SEED] [LONGEST] [CALLS]: every stored job once, then RUNS inputs of at most LONGEST bytes, made from the stored jobs, then CALLS (RUNS where
# it isn't said) made from the other stored calls; what it finds goes to target/fuzz.
set -euo pipefail
cd "$(dirname "$0")/.."
runs=${1:-100000} seed=${2:-1} longest=${3:-1500}
others=${4:-$runs}
if ! echo 'int LLVMFuzzerTestOneInput() { return 0; }' | clang -x c -fsanitize=fuzzer,address,undefined -o /dev/null - 2>/dev/null; then
    echo "no clang with libFuzzer and its checks: not run"
    exit 77
fi
tests/checked_archive.sh
rm -rf target/fuzz/stored target/fuzz/corpus target/fuzz/calls target/fuzz/found
mkdir -p target/fuzz/stored target/fuzz/corpus target/fuzz/calls target/fuzz/found target/log
checked() { # NAME CHECKS
    clang -std=c11 -O2 -g -Wall -Wextra -D_GNU_SOURCE -Iinclude -fsanitize="$2" -fno-sanitize-recover=all -o "target/fuzz/$1" "tests/$1.c" target/fuzz/libwagonplan.a -lpthread
}
checked replay address,undefined
target/fuzz/replay --seeds target/fuzz/calls tests/lists/*.txt | tail -n 1
checked fuzz fuzzer,address,undefined
python3 - "$longest" <<'PY'
import sys
words = [line.split() for name in ("jobs", "pins", "larger") for line in open(f"tests/lists/{name}.txt") if line[0] != "#"]
for k, word in enumerate(given for call, given, *_ in words if call == "answer" and given != "~"):
    job = b"\x08" + bytes.fromhex(word.strip("-"))
    for folder in ["stored"] + ["corpus"] * (len(job) <= int(sys.argv[1])):
        open(f"target/fuzz/{folder}/stored-{k:04}", "wb").write(job)
PY
run() { # PROGRAM WORDS..
    local program=$1
    shift
    "target/fuzz/$program" -seed="$seed" -timeout=60 -rss_limit_mb=4096 -artifact_prefix=target/fuzz/ "$@" 2>"target/log/$program.txt" ||
        { tail -n 30 "target/log/$program.txt"; exit 1; }
}
told() { grep -oE '^(number .*|stat::(number_of_executed_units|average_exec_per_sec).*)|DONE +cov: [0-9]+' "target/log/$1.txt"; }
run fuzz target/fuzz/stored/*
echo "stored jobs: $(find target/fuzz/stored -type f | wc -l), no finding"
run fuzz -runs="$runs" -max_len="$((longest + 1))" -print_final_stats=1 target/fuzz/corpus
told fuzz
checked fuzz_calls fuzzer,address,undefined
run fuzz_calls -runs="$others" -max_len=4000 -print_final_stats=1 target/fuzz/found target/fuzz/calls
told fuzz_calls | awk '/^number /{ of[$4] += $5; all += $5; next } { print } END { for (name in of) print name " " of[name] " calls"; print "other calls: " all ", no finding" }'
