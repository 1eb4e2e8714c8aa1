#!/usr/bin/env bash
# The whole record call on the large job (n 127, 4,096 entries, rank 17, 200 sweeps, W 128, 30 draws) by each rule, and on those of 240 and 255 wagons with 2,048,
# against the oracle's reading and solving, its second search for the rounds left out. Both are timed in turn, three times; the fastest batch of each counts.
set -eu
cd "$(dirname "$0")/.."
archive=$(tools/archive.sh)
mkdir -p target/bench
export CARGO_TARGET_DIR="$PWD/target/oracle"
(cd oracle && cargo build --release --offline --locked --quiet)
oracle=$CARGO_TARGET_DIR/release/oracle
gcc -O2 -Wall -Wextra -Iinclude -o target/bench/time_record bench/time_record.c "$archive"

echo "the whole record call, large jobs: ours, the Rust"
for hall in '' 'of 127 1024' 'of 240 1024' 'of 255 1024'; do # a job of 240 wagons and rank 17 has room for 1,024 pairs
    for rule in 0 1 2 3 4; do
        "$oracle" problem $hall job "$rule" 17 200 128 30 1 | basenc --base16 -d >target/bench/job
        for _ in 1 2 3; do
            ${FIXED:-} "$oracle" bench answer 1 <target/bench/job | sed -nE '1s/.* ([0-9]+) in the fastest.*/rust \1/p'
            ${FIXED:-} target/bench/time_record 1 <target/bench/job | sed -E 's/.* /ours /'
        done | awk -v name="${hall:-of 127 2048} rule $rule" '
            !($1 in least) || $2 < least[$1] { least[$1] = $2 }
            END { printf "%-22s %9.2f us %9.2f us   ours / Rust %5.2f\n", name, least["ours"] / 1000, least["rust"] / 1000, least["ours"] / least["rust"] }'
    done
done
