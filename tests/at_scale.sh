#!/usr/bin/env bash
# The oracle and the port side by side on seeded calls: tests/at_scale.sh [PERCENT] [SEED] [KIND...]. Each KIND of tests/make/all.py is made so many times as the
# list below says, or PERCENT of it; of jobs 1,000,000 over the three versions. Every value, refusal and kept byte is compared. Parts are made in pieces of at
# most 10,000, as many at a time as there are processors; piece k has the seed `SEED-k`. The exit status is 0 where nothing differs; what each piece printed is
# in target/log/at_scale.
set -eu
cd "$(dirname "$0")/.."
percent=${1:-100} seed=${2:-1}
shift "$(($# < 2 ? $# : 2))"
counts="jobs 400000
pins 400000
larger 200000
runs 20000
exchange 20000
larger-calls 1000
turns 2000
reduced 50000
blocks 50000
limited 50000
divided 50000
ranged 50000
walk 50000
distances 50000
lengths 5000"
mkdir -p target/log/at_scale
(cd oracle && CARGO_TARGET_DIR="$OLDPWD/target/oracle" cargo build --release --offline --locked --quiet)
WAGONPLAN_ARCHIVE=$(tools/archive.sh)
export WAGONPLAN_ARCHIVE
tests/replay.sh --build
pieces() { # prints KIND COUNT SEED of each piece
    while read -r kind count; do
        [ $# -eq 0 ] || [[ " $* " == *" $kind "* ]] || continue
        local left=$((count * percent / 100)) k=0
        while [ "$left" -gt 0 ]; do
            local piece=$((left < 10000 ? left : 10000))
            k=$((k + 1)) left=$((left - piece))
            echo "$kind $piece $seed-$k"
        done
    done <<<"$counts"
}
piece() { # KIND COUNT SEED
    local log=target/log/at_scale/$1-$3.txt
    tests/make/all.py "$1" "$2" "$3" | target/tests/replay >"$log" 2>&1
}
export -f piece
status=0
pieces "$@" | xargs -P "$(nproc)" -L 1 bash -c 'set -o pipefail; piece "$@"' piece || status=1
# the sums of what the pieces of each kind printed
while read -r kind _; do
    [ $# -eq 0 ] || [[ " $* " == *" $kind "* ]] || continue
    cat target/log/at_scale/"$kind-$seed"-*.txt | awk -v kind="$kind" -v seed="$seed" '
        /^calls / { made += $2; differing += $4; next }
        /^[a-z_]+: / { for (k = 2; k < NF; k += 3) if ($(k + 2) + 0 == 0) zero += $k }
        END { printf "%s, seed %s: %d calls, %d accepted, %d differences\n", kind, seed, made, zero, differing }'
done <<<"$counts"
exit "$status"
