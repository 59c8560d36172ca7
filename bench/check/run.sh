#!/usr/bin/env bash
# Times `check` beside `factor` for the same job: on the block that `factor` writes, and on the same block with a refused
# last term. It needs rt.
#
# Each time is the least processor time of three whole runs, from the start of the program to its end.
set -euo pipefail
export LC_ALL=C
here=$(cd "$(dirname "$0")" && pwd)
program="$here/../../crates/hensel_tool/out/hensel_tool"
work=$(mktemp -d)
trap 'rm -rf "$work"' EXIT
"$here/../../scripts/build" hensel_tool
TIMEFORMAT='%3U %3S'

# least COMMAND SCRIPT STATUS: the time in ms; what the last run wrote is in `written`
least() {
    local status
    for _ in 1 2 3; do
        { time { "$program" "$1" <"$work/$2" >"$work/written" && status=0 || status=$?; }; } 2>>"$work/times"
        [ "$status" = "$3" ] || { echo "$1 on $2: status $status, not $3" >&2; exit 1; }
    done
    awk '{ taken = $1 + $2 } NR == 1 || taken < best { best = taken } END { printf "%.0f", best * 1e3 }' "$work/times"
    rm "$work/times"
}

echo "| to degree | bytes of the block | \`factor\` ms | \`check\` ms | refused ms |"
echo "|---|---|---|---|---|"
for degree in 5 6 7 8 9; do
    printf 'mod 99991\nvars a b c d e f g h\npoly Y^2 - 1/(1 - 3*a - b - c - d - e - f - g - 5*h)\nroots 1:1 -1:1\n' \
        >"$work/header"
    { cat "$work/header"; echo "show $degree"; } >"$work/script"
    factor=$(least factor script 0)
    mv "$work/written" "$work/block"
    { cat "$work/header"; echo block; cat "$work/block"; } >"$work/right"
    # the last coefficient gets a leading zero
    sed '$ s/\(.*\) + /\1 + 0/' "$work/right" >"$work/refused"
    check=$(least check right 0)
    grep -qx right "$work/written"
    refused=$(least check refused 1)
    echo "| $degree | $(wc -c <"$work/block") | $factor | $check | $refused |"
done
