#!/usr/bin/env bash
# Solves a hall: tools/show_hall.sh [HALL]. Where the program isn't built, every crate that it needs is proved first, and the program is built from them.
# The answer is printed in words, drawn in target/plan.svg and written to target/plan.json. WAGONPLAN may name another program.
set -euo pipefail
hall=${1:+$(realpath "$1")}
cd "$(dirname "$0")/.."
hall=${hall:-examples/halls/stalls.txt}
log=target/log/program.txt

# The crates of crates.txt that wagonplan needs, itself among them.
crates_needed() {
    awk -F: '
        /^[a-z]/ { needs[$1] = $2 }
        function visit(name, list, count, k) {
            if (!(name in needs) || name in seen) return
            seen[name] = 1; many++
            count = split(needs[name], list, " ")
            for (k = 1; k <= count; k++) visit(list[k])
        }
        END { visit("wagonplan"); print many }' crates.txt
}

clock() { printf '%d:%02d' $((SECONDS / 60)) $((SECONDS % 60)); }

# Reads what rt says: a line for each crate that is proved, with a count and the time so far; on a terminal the time runs on between them.
progress() {
    local total=$1 proved=0 line part='' name=''
    while true; do
        if IFS= read -r -t 1 line; then
            line=$part$line part=''
            [[ ! $line =~ ^crate\ ([a-z_]+):\ modules ]] || name=${BASH_REMATCH[1]}
            [[ $line == logic=proved* ]] || continue
            proved=$((proved + 1))
            [ ! -t 1 ] || printf '\r\e[K'
            printf '[%2d of %d] %6s  %s\n' "$proved" "$total" "$(clock)" "$name"
        elif [ $? -gt 128 ]; then # a second without a line
            part+=$line
            [ ! -t 1 ] || printf '\r\e[K[%2d of %d] %6s  proving ..' "$proved" "$total" "$(clock)"
        else
            break
        fi
    done
}

build() {
    command -v rt >/dev/null || { echo "rt isn't installed: proving takes the Rattle kit that .ci/kit names." >&2; exit 2; }
    local total
    total=$(crates_needed)
    echo "The program wagonplan isn't built yet. Its $total crates are proved now, in order, as far as that isn't kept, and it is built from them. This is done"
    echo "once, and takes about 12 minutes on two processors beside other work. Then $hall is solved."
    if ! tools/program.sh --show 2>&1 >/dev/null | progress "$total"; then
        tail -n 20 "$log"
        exit 2
    fi
    echo "All is proved and built in $(clock)."
    echo
}

[ -n "${WAGONPLAN:-}" ] || [ -x target/bin/wagonplan ] || build
mkdir -p target
tools/plan "$hall" --answer target/answer --plan target/plan.svg --json target/plan.json
echo "The plan is drawn in target/plan.svg, a page of A4 for the door; target/plan.json has it for a program."
