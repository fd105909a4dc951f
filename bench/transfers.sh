#!/bin/sh
# Measures a settle over generated scripts that transfer data: events per second, and where valgrind is there the
# instructions of an event and the memory that the program takes beside its texts.
#
#   bench/transfers.sh [SCRIPTS]      1,000 scripts of 60 events by default
. "$(dirname "$0")/program.sh"
scripts=${1:-1000}
events=60

# The most memory that the program takes for an input, in KiB.
memory() { # the input
    /usr/bin/time -f %M "$program" <"$1" 2>&1 >/dev/null | tail -n 1
}

transfers "$scripts" >"$work/input"

octets=$(wc -c <"$work/input")
begin=$(date +%s%N)
"$program" <"$work/input" >"$work/output"
end=$(date +%s%N)
tail -n 1 "$work/output"
awk -v all="$((scripts * events))" -v octets="$octets" -v ns="$((end - begin))" 'BEGIN {
    s = ns / 1e9
    printf "%d octets, %d events in %.3f s: %.0f events/s\n", octets, all, s, all / s
}'

if command -v valgrind >/dev/null 2>&1; then
    taken=$(instructions "$work/input")
    awk -v all="$((scripts * events))" -v n="$taken" 'BEGIN { printf "%.0f instructions an event, the aim is 2,400\n", n / all }'
fi
if [ -x /usr/bin/time ]; then
    resident=$(memory "$work/input")
    idle=$(memory /dev/null)
    awk -v kib="$resident" -v idle="$idle" -v octets="$octets" 'BEGIN {
        printf "%d KiB resident, %.1f times the texts; ", kib, kib * 1024 / octets
        printf "%d without a script, and %.1f times the texts without these, the aim is 2.5\n", idle, (kib - idle) * 1024 / octets
    }'
fi
