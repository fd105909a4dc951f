#!/bin/sh
# Measures a settle over generated scripts: octets and scripts per second, as the built program takes them. Where valgrind
# is there, also a settle of 1,024 scripts of which one changed: the instructions for each script that didn't change, in which
# the octets of its row are counted. The instructions of ten such settles of that one script alone are taken off.
#
#   bench/settle.sh [SCRIPTS [EVENTS]]      1,000 scripts of 60 events by default
. "$(dirname "$0")/program.sh"
scripts=${1:-1000}
events=${2:-60}

generate "$scripts" "$events" >"$work/input"

octets=$(wc -c <"$work/input")
begin=$(date +%s%N)
"$program" <"$work/input" >"$work/output"
end=$(date +%s%N)
tail -n 1 "$work/output"
awk -v octets="$octets" -v scripts="$scripts" -v ns="$((end - begin))" 'BEGIN {
    s = ns / 1e9
    printf "%d octets, %d scripts in %.3f s: %.0f octets/s, %.0f scripts/s\n", octets, scripts, s, octets / s, scripts / s
}'

# So many edits of the first of so many scripts of three events, and a settle after each.
changing() { # turns, how many scripts
    generate "$2" 3
    echo settle
    awk -v turns="$1" 'BEGIN { for (t = 1; t <= turns; t++) print "edit script1 3 1 1\n+0 listen(3, " t ") = 0\nsettle" }'
}

# The instructions of ten settles of so many scripts, each after an edit of the first.
ten_settles() { # how many scripts
    changing 10 "$1" >"$work/changed"
    changing 0 "$1" >"$work/settled"
    echo $(($(instructions "$work/changed") - $(instructions "$work/settled")))
}

if command -v valgrind >/dev/null; then
    awk -v all="$(ten_settles 1024)" -v one="$(ten_settles 1)" 'BEGIN {
        printf "a settle of 1,024 scripts of which one changed: %.0f instructions for each other one\n", (all - one) / 10 / 1023
    }'
fi
