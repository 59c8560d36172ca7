#!/bin/sh
# Times the proved preparation from outside, beside the same recurrences in C++. It needs rt and g++.
#
# A workload's time is (time(n) - time(1)) / (n - 1), so that what comes once, as the start of the
# program and the making of the rows, is left out. Each of the two times is the least of nine. It is
# divided by the multiplications of coefficients that the recurrences need.
set -eu
here=$(cd "$(dirname "$0")" && pwd)
crate="$here/../../crates/prepare_speed"
work=$(mktemp -d)
trap 'rm -rf "$work"' EXIT
"$here/../../scripts/build" prepare_speed
g++ -O3 -march=x86-64-v2 -std=c++17 -o "$work/compare" "$here/compare.cpp"

# the least wall time of nine runs
least() {
    best=
    for _ in 1 2 3 4 5 6 7 8 9; do
        start=$(date +%s%N)
        "$crate/out/prepare_speed" "$@" >"$work/printed"
        taken=$(($(date +%s%N) - start))
        if [ -z "$best" ] || [ "$taken" -lt "$best" ]; then best=$taken; fi
    done
    echo "$best"
}

# The multiplications up to a degree. A step to degree r makes products of parts of the degrees s and
# r - s, with (s + 1) * (r - s + 1) multiplications each: for s from 1 to r one at Y^1 and eleven for
# the unit, for s from 1 to r - 1 one at Y^0 and one at Y^1; and it scales two parts by the inverse.
multiplications() {
    awk -v degree="$1" 'BEGIN {
        for (r = 1; r <= degree; r++) {
            all = 0
            for (s = 1; s <= r; s++) all += (s + 1) * (r - s + 1)
            count += 12 * all + 2 * (all - (r + 1)) + 2 * (r + 1)
        }
        printf "%d\n", count
    }'
}

# row DEGREE MODULUS TIMES TIMES-IN-C++
row() {
    once=$(least "$1" "$2" 1)
    many=$(least "$1" "$2" "$3")
    "$work/compare" "$1" "$2" "$4" >"$work/compared"
    awk -v once="$once" -v many="$many" -v times=$(($3 - 1)) -v count="$(multiplications "$1")" \
        -v head="| $1 | $2" -v printed="$(cat "$work/printed")" 'BEGIN {
            split(printed, proved, " ")
            getline
            if ($2 != proved[2]) { print "the checksums differ: " proved[2] " and " $2; exit 1 }
            taken = (many - once) / times
            printf "%s | %d | %.2f | %.2f | %.2f | %.2f | %s |\n", head, count, taken / 1e6,
                taken / count, $3 / count, taken / $3, proved[2]
        }' <"$work/compared"
}

echo "| degree | modulus | multiplications | ms | ns each | C++, ns each | to C++ | checksum |"
echo "|---|---|---|---|---|---|---|---|"
for modulus in 9223372036854775783 998244353 101; do
    row 40 "$modulus" 51 27
    row 80 "$modulus" 11 27
    row 200 "$modulus" 2 9
done
