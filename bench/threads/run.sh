#!/usr/bin/env bash
# Times `factor --workers N` and `factor --rounds N` beside `factor`. It needs rt, python3, and a machine with a processor
# for each worker that does nothing else.
#
# Each time is the least wall time of five whole runs, from the start of the program to its end, in which the ways take
# turns. Where two of them print different bytes it fails.
set -euo pipefail
export LC_ALL=C
here=$(cd "$(dirname "$0")" && pwd)
program=${HENSEL_TOOL:-$here/../../crates/hensel_tool/out/hensel_tool}
work=$(mktemp -d)
trap 'rm -rf "$work"' EXIT
if [ -z "${HENSEL_TOOL:-}" ]; then "$here/../../scripts/build" hensel_tool; fi

# clock NAME WORD..: one run; NAME.printed is what it prints, NAME.times gets one line more, in us
clock() {
    local start=${EPOCHREALTIME/./}
    "$program" "${@:2}" <"$work/script" >"$work/$1.printed"
    echo $((${EPOCHREALTIME/./} - start)) >>"$work/$1.times"
}

least() {
    sort -n "$work/$1.times" | sed -n 1p
}

# row NAME DEGREE: the script in $work/script
row() {
    rm -f "$work"/*.times
    for _ in 1 2 3 4 5; do
        clock plain factor
        for way in workers rounds; do
            for count in 1 2 4; do
                clock "$way$count" factor "--$way" "$count"
                cmp "$work/plain.printed" "$work/$way$count.printed"
            done
        done
    done
    awk -v head="| $1 | $2" -v plain="$(least plain)" -v one="$(least workers1)" -v two="$(least workers2)" \
        -v four="$(least workers4)" -v round1="$(least rounds1)" -v round4="$(least rounds4)" 'BEGIN {
            printf "%s | %.0f | %.0f | %.0f | %.0f | %.2f | %.2f | %.0f | %.0f |\n", head, plain / 1e3, one / 1e3,
                two / 1e3, four / 1e3, one / plain, four / one, round1 / 1e3, round4 / 1e3
        }'
}

echo "| job | to degree | \`factor\` ms | 1 worker | 2 workers | 4 workers | 1 to \`factor\` | 4 to 1 | 1 in rounds | 4 in rounds |"
echo "|---|---|---|---|---|---|---|---|---|---|"
for degree in 30 60 120; do
    "$here/many_roots.py" 8 2 "show $degree" >"$work/script"
    row "eight roots" "$degree"
done
"$here/demo_job.py" 7 80 >"$work/script"
row "\`demo 7\`" 80
"$here/many_roots.py" 4 3 "show 40" >"$work/script"
row "three variables" 40
