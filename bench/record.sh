#!/bin/sh
# Measures what recording costs: the instructions of pdrecord for generated scripts that transfer data, a run for each, over
# those of pdregress for the same scripts in one run, each without the starts of the program, most of which the C library
# takes. They may be 3 times as many; the status tells whether they are no more. It also says what a start costs by itself,
# and how many times it is with the starts of pdrecord, and where pdregress is started for each script too. Needs valgrind.
#
#   bench/record.sh [SCRIPTS]      100 scripts of 60 events by default, as valgrind takes a second for each. RECORD
#                                  names another build of pdrecord
. "$(dirname "$0")/program.sh"
record=${RECORD:-$top/crates/pdrecord/out/pdrecord}
[ -n "${RECORD:-}" ] || "$top/prove" pdrecord
scripts=${1:-100}

transfers "$scripts" >"$work/input"
awk -v work="$work/" '/^add / { file = work $2 ".pkt"; next } { print > file }' "$work/input"
"$program" <"$work/input" | tail -n 1
plain=$(instructions "$work/input")
idle=$(instructions /dev/null)
start=$(program=$record && instructions /dev/null)
for script in "$work"/script*.pkt; do
    "$record" <"$script" | cmp -s - "$script" || changed=$((${changed:-0} + 1))
    { echo "add script 60" && cat "$script"; } >"$work/alone"
    echo "$(program=$record && instructions "$script") $(instructions "$work/alone")"
done >"$work/recorded"
echo "${changed:-0} of $scripts recordings have other octets than the scripts"
awk -v scripts="$scripts" -v plain="$plain" -v idle="$idle" -v start="$start" '{ sum += $1; alone += $2 } END {
    once = plain - idle
    recorded = sum - scripts * start
    printf "%.0f instructions, %.0f to record, both without starts: %.3f times, at most 3\n", once, recorded, recorded / once
    printf "%.0f of a start, %.3f times with the starts of pdrecord, %.3f times with a start of each\n", start, sum / plain, sum / alone
    exit recorded > 3 * once
}' "$work/recorded"
