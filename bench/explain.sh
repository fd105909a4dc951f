#!/bin/sh
# Measures what explaining costs: the instructions of pdregress with --explain for generated scripts that transfer data, over
# those without that word. Where all scripts fail at their last event, by another packet or by none, they may be 1.5 times as
# many, where none fails 1.02 times; the status tells whether they are no more. Needs valgrind.
#
#   bench/explain.sh [SCRIPTS]      1,000 scripts of 60 events by default
. "$(dirname "$0")/program.sh"
scripts=${1:-1000}

# The same scripts with another end: the last acknowledgment once more, a write, and another packet than the one it sends.
fail_last() {
    awk '
        /^add / { line = 0 }
        { line++ }
        line == 58 { acknowledgment = $0 }
        line == 59 { write = $0; next }
        line == 60 { packet = $0; next }
        line == 61 { sub(/ack 1$/, "ack 2", packet); print acknowledgment; print write; print packet; next }
        { print }
    '
}

# The same scripts, whose last event awaits a packet that isn't sent.
miss_last() {
    awk '
        /^add / { line = 0 }
        { line++ }
        line == 61 { print "+0 > . 99:99(0) ack 1"; next }
        { print }
    '
}

compare() { # WHAT INPUT MOST
    plain=$(instructions "$2")
    explained=$(instructions "$2" --explain)
    awk -v what="$1" -v plain="$plain" -v explained="$explained" -v most="$3" 'BEGIN {
        printf "%s: %.0f instructions, %.0f to explain: %.3f times, at most %s\n", what, plain, explained, explained / plain, most
        exit explained > most * plain
    }'
}

transfers "$scripts" >"$work/passing"
fail_last <"$work/passing" >"$work/failing"
miss_last <"$work/passing" >"$work/missing"
for input in passing failing missing; do
    "$program" <"$work/$input" | tail -n 1
done
bad=0
compare "none fails" "$work/passing" 1.02 || bad=1
compare "all fail" "$work/failing" 1.5 || bad=1
compare "all miss a packet" "$work/missing" 1.5 || bad=1
exit $bad
