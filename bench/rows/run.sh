#!/bin/sh
# Looks at shared rows beside a writer, a thousand times over, and at vectors behind locks in the same run. It needs rt.
set -eu
here=$(cd "$(dirname "$0")" && pwd)
crate="$here/../../crates/rows_speed"
"$here/../../scripts/build" rows_speed
"$crate/out/rows_speed" 4 4096 1000 times
