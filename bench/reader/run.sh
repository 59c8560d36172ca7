#!/bin/sh
# Times the proved reading of expressions from outside. It needs rt.
#
# A workload's time is (time(n) - time(1)) / (n - 1), so that what comes once, as the start of the
# program and the making of the text, is left out. Each of the two times is the least of nine.
set -eu
here=$(cd "$(dirname "$0")" && pwd)
crate="$here/../../crates/reader_speed"
work=$(mktemp -d)
trap 'rm -rf "$work"' EXIT
"$here/../../scripts/build" reader_speed

# the least wall time of nine runs
least() {
    best=
    for _ in 1 2 3 4 5 6 7 8 9; do
        start=$(date +%s%N)
        "$crate/out/reader_speed" "$@" >"$work/printed"
        taken=$(($(date +%s%N) - start))
        if [ -z "$best" ] || [ "$taken" -lt "$best" ]; then best=$taken; fi
    done
    echo "$best"
}

# row KIND LENGTH TIMES
row() {
    once=$(least "$1" "$2" 1)
    many=$(least "$1" "$2" "$3")
    awk -v once="$once" -v many="$many" -v times=$(($3 - 1)) -v length_of="$2" \
        -v head="| $1 | $2" 'BEGIN {
            getline
            taken = (many - once) / times
            printf "%s | %.3f | %.1f | %s |\n", head, taken / 1e6, taken / length_of, $0
        }' <"$work/printed"
}

echo "| kind | length | ms | ns a byte | printed |"
echo "|---|---|---|---|---|"
for kind in sum nested number; do
    for length in 16384 32768 65536; do
        row "$kind" "$length" 101
    done
done
