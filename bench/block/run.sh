#!/usr/bin/env bash
# Times the proved writing and reading of blocks from outside. It needs rt.
#
# A workload's time is (time(n) - time(1)) / (n - 1), so that what comes once, as the start of the program and the
# making of the factor, is left out. Each of the two times is the least of five, of the processor time of the whole
# program: on a busy machine that varies less than the time of a clock. It is divided by the block's terms, and by its
# bytes.
set -eu
here=$(cd "$(dirname "$0")" && pwd)
crate="$here/../../crates/block_speed"
work=$(mktemp -d)
trap 'rm -rf "$work"' EXIT
"$here/../../scripts/build" block_speed
TIMEFORMAT='%3U %3S'

# the least processor time of five runs, in seconds
least() {
    for _ in 1 2 3 4 5; do
        { time "$crate/out/block_speed" "$@" >"$work/printed"; } 2>&1
    done | awk '{ taken = $1 + $2 } NR == 1 || taken < best { best = taken } END { print best }'
}

# row WAY POLYNOMIAL VARIABLES DEGREE TIMES
row() {
    once=$(least "$1" "$2" "$4" 1)
    many=$(least "$1" "$2" "$4" "$5")
    awk -v once="$once" -v many="$many" -v times=$(($5 - 1)) -v head="| $1 | $3 | $4" -F '[ ,]+' '{
        taken = (many - once) / times * 1e9
        printf "%s | %d | %d | %.3f | %.1f | %.2f |\n", head, $2, $4, taken / 1e6, taken / $2, taken / $4
    }' "$work/printed"
}

eight='Y - 1 + 1/(1-a-b-c-d-e-f-g-h)'
one='Y - 1 + 1/(1-2*x)'

echo "| what | variables | degree | terms | bytes | ms | ns a term | ns a byte |"
echo "|---|---|---|---|---|---|---|---|"
row write "$eight" 8 9 301
row write "$one" 1 4095 2001
row read "$eight" 8 9 201
row read "$one" 1 4095 2001
