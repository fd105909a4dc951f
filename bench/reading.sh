#!/bin/sh
# Measures how scripts are read, as the built program takes them: long argument lists, scripts of 60 events that stop at
# their first one, so that little but reading is left, and the same scripts run to their end, with a state kept after each
# fourth event. Tells octets per second, and where valgrind is there the instructions an octet, which don't vary with the
# load.
#
#   bench/reading.sh [OCTETS]      about 1,000,000 octets of each by default
. "$(dirname "$0")/program.sh"
octets=${1:-1000000}

# Each script is 60 lines of one call, whose arguments are brackets within brackets.
awk -v octets="$octets" 'BEGIN {
    call = "0 socket("
    for (a = 1; a <= 80; a++)
        call = call "[a,(b,{c})],"
    call = call "x) = 3"
    for (s = 1; written < octets; s++) {
        print "add arguments" s, 60
        for (e = 1; e <= 60; e++)
            print call
        written += 60 * (length(call) + 1)
    }
}' >"$work/arguments"

# Each script listens on the descriptor again and again, once it opened and bound it; without that its first event stops it.
events() { # whether the descriptor is opened
    awk -v octets="$octets" -v opened="$1" 'BEGIN {
        for (s = 1; written < octets; s++) {
            print "add events" s, 60
            print opened ? "0 socket(..., SOCK_STREAM, IPPROTO_TCP) = 3" : "0 listen(3, 1) = 0"
            print "+0 bind(3, ..., ...) = 0"
            for (e = 3; e <= 60; e++) {
                line = sprintf("+0.%03d listen(3, %d) = 0", (s * 7 + e * 13) % 1000, e)
                print line
                written += length(line) + 1
            }
        }
    }'
}
events 0 >"$work/stopped"
events 1 >"$work/events"

for input in arguments stopped events; do
    count=$(wc -c <"$work/$input")
    begin=$(date +%s%N)
    "$program" <"$work/$input" >/dev/null || [ $? -eq 1 ]
    end=$(date +%s%N)
    awk -v input="$input" -v octets="$count" -v ns="$((end - begin))" 'BEGIN {
        s = ns / 1e9
        printf "%s: %d octets in %.3f s, %.0f octets/s\n", input, octets, s, octets / s
    }'
    command -v valgrind >/dev/null || continue
    valgrind --tool=callgrind --callgrind-out-file=/dev/null "$program" <"$work/$input" 2>"$work/errors" >/dev/null || [ $? -eq 1 ]
    awk -v input="$input" -v octets="$count" '/Collected/ { printf "%s: %.0f instructions an octet, the aim is 70\n", input, $NF / octets }' "$work/errors"
done
