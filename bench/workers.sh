#!/bin/sh
# Measures a settle with workers, over generated scripts that take long: without workers, with 1 and with 4, and how the
# times compare. A settle after a changed setting is measured, so that taking the scripts in, which no worker shares, and a
# first settle are taken off. Far more scripts stand there than tracks are kept, and they come in the same order each time: a
# script's track is gone before its turn comes, so each is read and run whole. Of several tries the best counts, since times
# are noisy. A processor alone is often faster than four that are busy: so it also prints what 1 worker takes while three more
# such programs run, and how 4 compare with that. Where valgrind is there, it also prints the instructions without workers and
# with 1, which don't vary with the load, on a tenth of the scripts. Then it prints what acts cost with a worker: the
# memory that 1,000 scripts of nine lines take whose last line is edited 20 times each; and the instructions of 60,000 sets and
# 2,000 reports without a script, so that no job runs and each report is compared with all acts.
#
#   bench/workers.sh [SCRIPTS [EVENTS [TRIES]]]      1,000 scripts of 2,000 events, 5 tries by default
. "$(dirname "$0")/program.sh"
scripts=${1:-1000}
events=${2:-2000}
tries=${3:-5}
rounds=3

generate "$scripts" "$events" >"$work/settled"
echo settle >>"$work/settled"
{
    cat "$work/settled"
    for round in $(seq "$rounds"); do
        echo "set tolerance_us $((4000 + round))"
        echo settle
    done
} >"$work/changed"

# The nanoseconds of an input with so many workers, in so many programs at once, whose octets are to be those without.
took() { # workers, the input, programs
    begin=$(date +%s%N)
    for more in $(seq 2 "$3"); do
        "$program" --workers "$1" <"$work/$2" >/dev/null &
    done
    "$program" --workers "$1" <"$work/$2" >"$work/output.$2.$1"
    wait
    end=$(date +%s%N)
    cmp "$work/output.$2.0" "$work/output.$2.$1" >&2
    echo $((end - begin))
}

# The nanoseconds of one settle with so many workers, in so many programs at once, the best of the tries.
settled() { # workers, programs
    : >"$work/times"
    for try in $(seq "$tries"); do
        first=$(took "$1" settled "$2")
        all=$(took "$1" changed "$2")
        echo $(((all - first) / rounds)) >>"$work/times"
    done
    sort -n "$work/times" | head -n 1
}

# So many sets, and then so many reports.
shown() { # sets, reports
    awk -v sets="$1" -v reports="$2" 'BEGIN {
        for (s = 1; s <= sets; s++) print "set nagle true"
        for (r = 1; r <= reports; r++) print "show"
    }'
}

# Scripts of so many lines, whose last line is edited so often, one script after the other.
edited() { # how many, of how many lines, how often
    generate "$1" "$2"
    awk -v scripts="$1" -v line="$2" -v rounds="$3" 'BEGIN {
        for (r = 1; r <= rounds; r++)
            for (s = 1; s <= scripts; s++) {
                print "edit script" s, line, 1, 1
                printf "+0.%03d listen(3, %d) = 0\n", (s * 7 + r * 13) % 1000, r
            }
    }'
}

# The most KiB that the program holds at once for an input, in the worst of the tries: how many jobs run varies.
resident() { # the input, and the words
    input=$1
    shift
    for try in $(seq "$tries"); do
        /usr/bin/time -f %M "$program" "$@" <"$input" 2>&1 >/dev/null | tail -n 1
    done | sort -n | tail -n 1
}

alone=$(settled 0 1)
tail -n 1 "$work/output.changed.0"
one=$(settled 1 1)
four=$(settled 4 1)
busy=$(settled 1 4)
awk -v alone="$alone" -v one="$one" -v four="$four" -v busy="$busy" 'BEGIN {
    printf "a settle without workers %.3f s, with 1 %.3f s, with 4 %.3f s\n", alone / 1e9, one / 1e9, four / 1e9
    printf "1 worker takes %.2f times the time without, 4 settle %.2f times as fast as 1\n", one / alone, one / four
    printf "1 beside three more programs %.3f s, 4 settle %.2f times as fast as that\n", busy / 1e9, busy / four
}'

if [ -x /usr/bin/time ]; then
    edited 1000 9 20 >"$work/edited"
    alone=$(resident "$work/edited" --workers 0)
    one=$(resident "$work/edited" --workers 1)
    awk -v alone="$alone" -v one="$one" 'BEGIN {
        printf "edited scripts: %d KiB resident without workers, %d KiB with 1, %.2f times as much\n", alone, one, one / alone
    }'
fi

command -v valgrind >/dev/null || exit 0
generate $(((scripts + 9) / 10)) "$events" >"$work/input"
alone=$(instructions "$work/input" --workers 0)
one=$(instructions "$work/input" --workers 1)
awk -v alone="$alone" -v one="$one" 'BEGIN { printf "instructions with 1 worker: %.3f times those without\n", one / alone }'
shown 60000 2000 >"$work/input"
echo "60,000 sets and 2,000 reports beside 1 worker: $(instructions "$work/input" --workers 1) instructions"
