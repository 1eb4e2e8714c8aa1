#!/usr/bin/env bash
# A job of version 2, some of whose wagons are pinned, against the job of version 1 on its reduced hall: the same run, but all of H is read, held against
# 13 to 16 and reduced, and the choice is merged. Reading and judging alone are timed by the same jobs with a byte too many, refused at their end. The
# large job (n 127, 4,096 entries, W 128, 30 draws) and a small one. All are timed in turn, six times; the fastest batch of each counts.
set -eu
cd "$(dirname "$0")/.."
archive=$(tools/archive.sh)
mkdir -p target/bench
export CARGO_TARGET_DIR="$PWD/target/oracle"
(cd oracle && cargo build --release --offline --locked --quiet)
oracle=$CARGO_TARGET_DIR/release/oracle
gcc -O2 -Wall -Wextra -Iinclude -o target/bench/time_record bench/time_record.c "$archive"

echo "a job with pins, and that of its reduced hall"
pinned() { # NAME COUNT CALLS HALL RULE RANK MOST WIDTH DRAWS
    local name=$1 count=$2 calls=$3 hall=$4
    shift 4
    "$oracle" problem $hall job "$@" 1 | basenc --base16 -d | bench/pin.py "$count" target/bench/with target/bench/without
    for _ in 1 2 3 4 5 6; do
        for job in without with; do
            ${FIXED:-} target/bench/time_record "$calls" <target/bench/$job | sed -E "s/.* /$job /"
            ${FIXED:-} target/bench/time_record 20 11 <target/bench/$job.more | sed -E "s/.* /$job.read /"
        done
    done | awk -v name="$name" '
        !($1 in least) || $2 < least[$1] { least[$1] = $2 }
        END {
            read = least["with.read"] - least["without.read"]
            printf "%-42s %9.2f us %9.2f us, reading more takes %6.2f us; with / without %6.3f, but for reading %6.3f\n", name, least["with"] / 1000,
                least["without"] / 1000, read / 1000, least["with"] / least["without"], (least["with"] - read) / least["without"]
        }'
}
for rule in 0 1 2 3 4; do pinned "27 of 127 pinned, rule $rule, 200 sweeps" 27 1 '' "$rule" 17 200 128 30; done
for count in 1 64 100; do pinned "$count of 127 pinned, rule 3, 200 sweeps" "$count" 1 '' 3 17 200 128 30; done
pinned "27 of 127 pinned, rule 3, 20 sweeps" 27 2 '' 3 17 20 128 30
pinned "3 of 12 pinned, rule 3, 20 sweeps" 3 40 'of 12 30' 3 7 20 16 5
pinned "27 of 127 pinned, no sweep, W 0, a draw" 27 20 '' 3 17 0 0 1
