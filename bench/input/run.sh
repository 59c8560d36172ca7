#!/bin/sh
# Times the rows of expressions from outside, degree by degree. It needs rt.
#
# A workload's time is (time(n) - time(1)) / (n - 1), so that what comes once, as the start of the program, is left out.
# Each of the two times is the least of five. It is divided by the multiplications of coefficients that are needed where
# no product is made with a part that is 0; by the pairs of parts whose products the formulas of products and quotients
# name; and by the multiplications that these formulas name where each part has all monomials of its degree.
set -eu
here=$(cd "$(dirname "$0")" && pwd)
crate="$here/../../crates/input_speed"
"$here/../../scripts/build" input_speed

# the least wall time of five runs
least() {
    best=
    for _ in 1 2 3 4 5; do
        start=$(date +%s%N)
        "$crate/out/input_speed" "$@" >/dev/null
        taken=$(($(date +%s%N) - start))
        if [ -z "$best" ] || [ "$taken" -lt "$best" ]; then best=$taken; fi
    done
    echo "$best"
}

# row EXPRESSION DEGREE TIMES MULTIPLICATIONS PAIRS NAMED
row() {
    once=$(least 998244353 "$2" 1 "$1")
    many=$(least 998244353 "$2" "$3" "$1")
    awk -v once="$once" -v many="$many" -v times=$(($3 - 1)) -v count="$4" -v pairs="$5" -v named="$6" \
        -v head="| \`$1\` | $2" 'BEGIN {
        taken = (many - once) / times
        printf "%s | %.2f | %d | %.2f | %d | %.2f | %.0f | %.2f |\n", head, taken / 1e6, count, taken / count, \
            pairs, taken / pairs, named, taken / named
    }'
}

# A dense series in two variables has r + 1 coefficients at degree r, so a product of two such series takes
# (s + 1) * (r - s + 1) multiplications for each s and r. A quotient by a dense series takes as many, with those by the
# inverse of its constant term.
dense_to() {
    awk -v to="$1" 'BEGIN {
        for (r = 0; r <= to; r++) for (s = 0; s <= r; s++) all += (s + 1) * (r - s + 1)
        printf "%d", all
    }'
}
dense=$(dense_to 200)

echo "| expression | degree | ms | multiplications | ns each | pairs of parts | ns each | named | ns each |"
echo "|---|---|---|---|---|---|---|---|---|"
# the powers from 2 to 7 make 21 products of dense series, and as many with 1 as there are coefficients
row '(Y + 1/(1-x-y))^7' 200 2 $((21 * dense + 27 * 20301 + 3 * 20301)) $((48 * 20301)) \
    $((48 * dense + dense))
# at each degree two multiplications for each coefficient before, and one for each by the inverse
row 'Y + 1/(1-x-y)' 200 51 $((2 * 20100 + 20301)) 20100 "$dense"
# in one variable a pair of parts is one multiplication
row 'Y + 1/(1-x)' 4095 101 $((4095 + 4096)) $((4095 * 4096 / 2)) $((4095 * 4096 / 2 + 4096))
# factor k + 1 has k + 1 rows before it
product='(1+x+y)'
count=0
for k in 2 3 4 5 6 7 8 9 10 11 12 13 14 15 16 17 18 19 20; do
    product="$product*($k+x+y)"
    count=$((count + 3 * k * (k + 1) / 2))
done
row "Y + $product" 20 501 "$count" $((19 * 231)) $((19 * $(dense_to 20)))
