#!/bin/sh
# Measures what it costs to answer scripts again after a changed setting that only their last events consult: scripts of
# 60 events, of which the 58th writes, after a change of how much may be queued, against the same scripts answered for the
# first time. The costs of the commands and the reports themselves are taken off. Tells nanoseconds, and where valgrind is
# there instructions, which don't vary with the load. The scripts are to be answered again at least five times as fast.
#
#   bench/settings.sh [SCRIPTS]      1,000 scripts by default, at most 1,024; a tenth of them for instructions
. "$(dirname "$0")/program.sh"
scripts=${1:-1000}

# Scripts that take acknowledgments, each at times of its own, and write in the end.
writing() { # how many
    awk -v scripts="$1" "$opening"'BEGIN {
        for (s = 1; s <= scripts; s++) {
            print "add script" s, 60
            opening(100)
            for (e = 8; e < 58; e++) printf "+0.%03d < . 1:1(0) ack 1 win %d\n", (s * 7 + e * 13) % 1000, 200 + e
            print "+0 write(4, ..., 1000) = 1000"
            print "+0 > P. 1:1001(1000) ack 1"
            print "+0.1 < . 1:1(0) ack 1001 win 257"
        }
    }'
}

# The scripts; then, so many times, the setting changed and a command; then one that ends the input where it stands, so that
# nothing more is run.
input() { # the command after the scripts, how many times, the command after each change
    cat "$work/scripts"
    echo "$1"
    awk -v turns="$2" -v command="$3" 'BEGIN {
        for (t = 1; t <= turns; t++) {
            print "set sndbuf", t % 2 ? 131072 : 262144
            print command
        }
    }'
    echo stop
}

nanoseconds() { # the input, and the words
    input=$1
    shift
    begin=$(date +%s%N)
    "$program" "$@" <"$input" >/dev/null 2>"$work/errors" || [ $? -eq 2 ]
    echo $(($(date +%s%N) - begin))
}

compared() { # scripts, turns, unit, shown, settled, each change shown, each change settled
    awk -v scripts="$1" -v turns="$2" -v unit="$3" -v shown="$4" -v settled="$5" -v changed="$6" -v answered="$7" 'BEGIN {
        first = (settled - shown) / scripts
        again = (answered - changed) / scripts / turns
        printf "a script for the first time %.0f %s, after a setting %.0f %s: %.1f times as fast\n", first, unit, again, unit, first / again
    }'
}

measure() { # scripts, turns, unit, and what measures an input
    writing "$1" >"$work/scripts"
    input show 0 "" >"$work/shown"
    input settle 0 "" >"$work/settled"
    input settle "$2" show >"$work/changed"
    input settle "$2" settle >"$work/answered"
    costs=
    for input in shown settled changed answered; do
        costs="$costs $("$4" "$work/$input" --cache 1024)"
    done
    compared "$1" "$2" "$3" $costs
}

measure "$scripts" 20 ns nanoseconds
if command -v valgrind >/dev/null; then
    measure $(((scripts + 9) / 10)) 1 instructions instructions
fi
