#!/bin/sh
# Times the proved product of parts from outside, beside two of C++. It needs rt and g++.
#
# A workload's time is (time(n) - time(1)) / ((n - 1) * pairs), in nanoseconds for each
# multiplication of coefficients, so that what comes once, as the start of the program and the
# making of the two parts, is left out. Each of the two times is the least of nine.
set -eu
here=$(cd "$(dirname "$0")" && pwd)
crate="$here/../../crates/parts_speed"
work=$(mktemp -d)
trap 'rm -rf "$work"' EXIT
"$here/../../scripts/build" parts_speed
g++ -O2 -std=c++17 -o "$work/compare" "$here/compare.cpp"

# the lines of C++, with the least of three in each column of times
for _ in 1 2 3; do "$work/compare"; done | awk '{
    key = $1 " " $2 " " $3 " " $4 " " $5 " " $6 " " $7
    if (!(key in plain)) { order[++keys] = key; plain[key] = $8; single[key] = $9; sum[key] = $10 }
    if ($8 < plain[key]) plain[key] = $8
    if ($9 < single[key]) single[key] = $9
    if ($10 < sum[key]) sum[key] = $10
} END {
    for (i = 1; i <= keys; i++) {
        key = order[i]
        print key, plain[key], single[key], sum[key]
    }
}
' >"$work/lines"

# the least wall time of nine runs
least() {
    best=
    for _ in 1 2 3 4 5 6 7 8 9; do
        start=$(date +%s%N)
        "$crate/out/parts_speed" "$@" >"$work/printed"
        taken=$(($(date +%s%N) - start))
        if [ -z "$best" ] || [ "$taken" -lt "$best" ]; then best=$taken; fi
    done
    echo "$best"
}

# row KIND TIMES PLAIN CELLS, with the words of a line of C++ set
row() {
    once=$(least "$1" "$weights" "$form" "$first" "$second" "$modulus" 1)
    many=$(least "$1" "$weights" "$form" "$first" "$second" "$modulus" "$2")
    awk -v once="$once" -v many="$many" -v count=$(($2 - 1)) -v pairs="$pairs" -v plain="$3" \
        -v cells="$4" -v head="| $1 | $weights | $degrees | $modulus" \
        -v printed="$(cat "$work/printed")" 'BEGIN {
            each = (many - once) / (count * pairs)
            printf "%s | %.2f | %s | %s | %.2f | %.2f | %s |\n", head, each, plain, cells,
                each / plain, each / cells, printed
        }'
}

echo "| kind | weights | degrees | modulus | proved | plain | cells | to plain | to cells" \
    "| terms, checksum |"
echo "|---|---|---|---|---|---|---|---|---|---|"
while read -r modulus weights form first second _ pairs plain single together; do
    degrees="$((form * first)) and $((form * second))"
    row product 4000 "$plain" "$single"
    row sum 4000 "$plain" "$together"
done <"$work/lines"
