#!/bin/sh
# Builds the oracle and holds it against document 01's worked halls and against model.py.
# Prints `oracle: ok`, or ends with a status other than 0.
set -eu

here=$(cd "$(dirname "$0")" && pwd)
repository=$(dirname "$here")
source=${MIXINGCUT_SRC:-$repository/../shared/docs/src}
if [ ! -d "$source" ]; then
    echo "oracle: not run, the folder with MixingCut's six files is absent: $source"
    exit 77
fi

export CARGO_TARGET_DIR="${CARGO_TARGET_DIR:-$repository/target/oracle}"
cd "$here"
cargo build --release --offline --locked --quiet
oracle=$CARGO_TARGET_DIR/release/oracle

fail() {
    echo "oracle: FAILED: $1" >&2
    exit 1
}

# hall NAME JOB ANSWER: the job's answer, in hexadecimal, blanks aside.
hall() {
    job=$(echo "$2" | tr -d ' \n')
    wanted=$(echo "$3" | tr -d ' \n')
    got=$(echo "$job" | "$oracle" answers)
    [ "$got" = "$wanted" ] || fail "$1: answered $got, not $wanted"
}

one=3FF0000000000000
zero=0000000000000000
# From the rank on: rank 0, rule 3 with number 0, no sweeps, tolerances 0, W 1, start by signs.
settings="00 03 $zero 00000000 00000000 $zero $zero 01 02"

hall "the worked example" \
    "0000005C 01 01 0001 0000 0000000000000002 FFFFFFFFFFFFFFFD $settings $one $one 0001 $one $zero" \
    "00000039 01 00 02 01 00000000 $zero C000000000000028 FFFFFFFFFFFFFFF0 $zero
     FFFFFFFFFFFFFFF0 0000000000000001 01"
hall "n 0" \
    "0000003A 01 00 0000 $settings $one 0001 $one" \
    "00000038 01 00 01 00 00000000 $zero $zero $zero $zero $zero $zero"
hall "H_01 = H_10 = 3, c = -1, -1" \
    "0000007E 01 02 0002 0001 0000000000000003 0100 0000000000000003
     FFFFFFFFFFFFFFFF FFFFFFFFFFFFFFFF $settings $one $one $one 0001 $one $zero $zero" \
    "0000003A 01 00 03 02 00000000 $zero BFF80000000000A0 FFFFFFFFFFFFFFF4 $zero
     FFFFFFFFFFFFFFF8 0000000000000001 01 00"

# From the rank on, with W 1 and a start by signs, for one free wagon and for none.
free="$settings $one $one 0001 $one $zero"
still="$settings $one 0001 $one"
pair="02 02 0002 0001 0000000000000003 0100 0000000000000003 FFFFFFFFFFFFFFFF FFFFFFFFFFFFFFFF"
hall "the same, wagon 0 pinned to 0" "00000071 $pair 01 0000 $free" \
    "0000003A 01 00 02 02 00000000 $zero BFF0000000000028 FFFFFFFFFFFFFFF8 $zero
     FFFFFFFFFFFFFFF8 0000000000000001 00 01"
hall "the same, both pinned to 1" "00000063 $pair 02 0001 0101 $still" \
    "0000003A 01 00 01 02 00000000 $zero $zero 0000000000000008 0000000000000008
     0000000000000008 0000000000000000 01 01"
hall "the same, wagon 2 pinned" "00000071 $pair 01 0200 $free" "00000002 01 15"
hall "the same, wagon 0 pinned to 2" "00000071 $pair 01 0002 $free" "00000002 01 15"

# leaf LINE RESULT
leaf() {
    got=$(echo "$1" | "$oracle" leaf)
    [ "$got" = "$1 = $2" ] || fail "$got, not $2"
}

for pair in 01:01 02:02 03:03 08:05 09:06 80:11; do
    leaf "rank 00000000000000${pair%:*}" "00000000000000${pair#*:}"
done
leaf "sqrt 4000000000000000" 3FF6A09E667F3BCD
leaf "sqrt 0000000000000001" 1E60000000000000
# m 1, 8 eighths at (0, 0), the factor 2.0: `dual_variables` is 4.0, the result field of a run 1.0.
eight="0000000000000001 0000000000000001 $zero $zero 0000000000000008 0000000000000001 0000000000000001 4000000000000000"
leaf "dual $eight" "0000000000000001 4010000000000000"
leaf "multipliers $eight" "0000000000000001 $one"
# Divided by 2.0 * 2.0 it is 1.0; the second of two rows 1.0 and 1E-200 with 8 eighths between them is an infinity.
leaf "divided_call 0000000000000001 0000000000000001 0000000000000001 $zero 0000000000000001 $zero 0000000000000001 0000000000000008 0000000000000001 0000000000000001 4000000000000000 0000000000000001" \
    "$zero 0000000000000001 $one"
two=0000000000000002
leaf "divided_call $two $two $two $zero 0000000000000001 $two 0000000000000001 $zero $two 0000000000000008 0000000000000008 0000000000000001 $two $one 16687E92154EF7AC $two" \
    "$zero $two 16687E92154EF7AC 7FF0000000000000"

# replay FILE MODE: the file's lines, each up to its " = ", answered again.
replay() {
    got=$(sed 's/ = .*//' "$1" | "$oracle" "$2")
    [ "$got" = "$(cat "$1")" ] || fail "$1 is answered otherwise"
}

replay leaf-examples.txt leaf
replay run-example.txt run

python3 compare.py "$oracle"
echo "oracle: ok"
