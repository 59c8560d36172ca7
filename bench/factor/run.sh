#!/usr/bin/env bash
# Times the program beside the same recurrences in C++: on the script of Y^2 + x*Y + 1 modulo 101 to growing degrees,
# and on scripts with several variables. It needs rt, g++ and GNU time.
#
# Each time is the least wall time of some whole runs, from the start of a process to its end, in which the two programs
# take turns; the memory is the greatest that one run held at once. Where the two print different bytes it fails.
set -euo pipefail
export LC_ALL=C
here=$(cd "$(dirname "$0")" && pwd)
program="$here/../../crates/hensel_tool/out/hensel_tool"
work=$(mktemp -d)
trap 'rm -rf "$work"' EXIT
"$here/../../scripts/build" hensel_tool
g++ -O3 -march=x86-64-v2 -std=c++17 -o "$work/compare" "$here/compare.cpp"

# clock NAME WORD..: runs the words on the script; NAME.printed is what they print, NAME.times gets one line more, in us
clock() {
    local start=${EPOCHREALTIME/./}
    "${@:2}" <"$work/script" >"$work/$1.printed"
    echo $((${EPOCHREALTIME/./} - start)) >>"$work/$1.times"
}

# memory NAME WORD..: NAME.memory is the greatest resident memory of one run, in KiB
memory() {
    /usr/bin/time -f %M -o "$work/$1.memory" "${@:2}" <"$work/script" >"$work/$1.printed"
}

least() {
    sort -n "$work/$1.times" | sed -n 1p
}

# measure RUNS: runs both programs on the script; `taken` is the time of the proved one in us, `figures` has for the
# table the times of both and their ratio, and likewise the memory
measure() {
    rm -f "$work"/*.times
    for _ in $(seq "$1"); do
        clock proved "$program" factor
        clock compared "$work/compare"
    done
    memory proved "$program" factor
    memory compared "$work/compare"
    cmp "$work/proved.printed" "$work/compared.printed"
    taken=$(least proved)
    figures=$(awk -v a="$taken" -v b="$(least compared)" -v c="$(cat "$work/proved.memory")" \
        -v d="$(cat "$work/compared.memory")" 'BEGIN {
            printf "%.2f | %.2f | %.2f | %.1f | %.1f | %.2f", a / 1e3, b / 1e3, a / b, c / 1024, d / 1024, c / d
        }')
}

# script MODULUS VARIABLES ROOTS DEGREE: the product of the powers of Y - C, and behind it each variable
# with a number at each power of Y below the degree of that product
script() {
    awk -v modulus="$1" -v variables="$2" -v roots="$3" -v degree="$4" 'BEGIN {
        for (i = 1; i <= split(roots, words); i++) {
            split(words[i], root, ":")
            poly = poly (i > 1 ? "*" : "") "(Y-" root[1] ")^" root[2]
            sum += root[2]
        }
        for (j = 0; j < sum; j++)
            for (i = 1; i <= split(variables, names); i++) {
                number = (number * 419 + 6173) % 29282
                poly = poly " + " number "*" names[i] "*Y^" j
            }
        printf "mod %s\nvars %s\npoly %s\nroots %s\nshow %d\n", modulus, variables, poly, roots, degree
    }' >"$work/script"
}

# row NAME MODULUS VARIABLES ROOTS DEGREE
row() {
    script "$2" "$3" "$4" "$5"
    measure 5
    echo "| $1 | $4 | $5 | $figures | $(wc -c <"$work/proved.printed") |"
}

# To degree r the first stage makes r - 1 products for its factor and r for its unit, each of two
# coefficients; the unit of the second stage is 1, and it needs none.
echo "| degree | multiplications | ns each | ms | C++ ms | ratio | MiB | C++ MiB | ratio |"
echo "|---|---|---|---|---|---|---|---|---|"
for degree in 1 100 400 1000 2000 4095; do
    printf 'mod 101\nvars x\npoly Y^2 + x*Y + 1\nroots 10:1 -10:1\nshow %d\n' "$degree" >"$work/script"
    measure 9
    count=$((degree * degree))
    each=$(awk -v taken="$taken" -v count="$count" 'BEGIN { if (count > 1) printf "%.2f", taken * 1e3 / count }')
    echo "| $degree | $count | $each | $figures |"
done

echo
echo "| job | roots, each with its multiplicity | to degree | ms | C++ ms | ratio | MiB | C++ MiB | ratio" \
    "| bytes printed |"
echo "|---|---|---|---|---|---|---|---|---|---|"
four='0:1 1:2 2:2 3:2'
row 'degree 7, two variables, modulo 1000003' 1000003 'x y' "$four" 40
row 'the same' 1000003 'x y' "$four" 80
row 'the same' 1000003 'x y' "$four" 200
row 'the same modulo 2^63 - 25' 9223372036854775783 'x y' "$four" 40
row 'the same modulo 2^63 - 25' 9223372036854775783 'x y' "$four" 80
row 'degree 3, three variables, modulo 1000003' 1000003 'x y z' '0:1 1:1 2:1' 40
row 'eight roots, two variables, modulo 1000003' 1000003 'x y' '0:1 1:1 2:1 3:1 4:1 5:1 6:1 7:1' 60
