#!/bin/sh
# Measures what it costs to answer a script again after an edit: one of 60 events that transfers data, edited in its last
# line, against the same script edited in its first line, which has to be read and run from the start. The costs of the edit
# and the report themselves are taken off. Tells nanoseconds, and where valgrind is there instructions, which don't vary with
# the load. An edit in the last line is to cost at most a fifth. The edit puts a space after the line or takes it away.
# Then tells how much more an edit in the last line costs for each further event that is kept: from scripts of 181 and of 541
# events.
# Last, a script that grows by an event a settle to 4,096: on average the last ten settles may cost 1.5 times what one costs
# after an edit of the last line of the same script, added whole. The status tells whether they keep to that.
#
#   bench/edits.sh [TURNS]      2,000 turns by default, a tenth of them for instructions
. "$(dirname "$0")/program.sh"
turns=${1:-2000}
transfers 1 >"$work/script"

# A script of a connection on which so many segments are written and acknowledged, three events each after the first seven.
connection() { # how many segments
    awk -v segments="$1" "$opening"'BEGIN {
        print "add script1", 7 + 3 * segments
        opening(1)
        for (segment = 1; segment <= segments; segment++) {
            from = 1 + (segment - 1) * 1000
            print "+0 write(4, ..., 1000) = 1000"
            printf "+0 > P. %d:%d(1000) ack 1\n", from, from + 1000
            printf "+0.101 < . 1:1(0) ack %d win 257\n", from + 1000
        }
    }'
}

# So many edits of this line of the script, and after each this command.
edits() { # how many, the line, the command
    cat "$work/script"
    echo settle
    text=$(sed -n "$(($2 + 1))p" "$work/script")
    awk -v turns="$1" -v line="$2" -v text="$text" -v command="$3" 'BEGIN {
        for (t = 1; t <= turns; t++) {
            print "edit script1", line, 1, 1
            print text (t % 2 ? " " : "")
            print command
        }
    }'
}

# Compares the costs of a turn in the last line and in the first, each less the cost of its edit and report without a run.
compared() { # turns, unit, the last line, its edits alone, the first line, its edits alone
    awk -v turns="$1" -v unit="$2" -v last="$3" -v base_last="$4" -v first="$5" -v base_first="$6" 'BEGIN {
        l = (last - base_last) / turns
        f = (first - base_first) / turns
        aim = unit == "instructions" ? " (the aim is 14,000)" : ""
        printf "in the last line %.0f %s%s, in the first %.0f %s: %.2f of it\n", l, unit, aim, f, unit, l / f
    }'
}

nanoseconds() { # the input
    begin=$(date +%s%N)
    "$program" <"$1" >/dev/null
    echo $(($(date +%s%N) - begin))
}

measure() { # turns, unit, and what measures an input
    for line in 60 1; do
        edits "$1" "$line" settle >"$work/settled$line"
        edits "$1" "$line" show >"$work/shown$line"
    done
    compared "$1" "$2" "$("$3" "$work/settled60")" "$("$3" "$work/shown60")" "$("$3" "$work/settled1")" "$("$3" "$work/shown1")"
}

# The instructions of so many edits in the last line of a script of so many segments, without their reports.
last() { # turns, segments
    connection "$2" >"$work/script"
    edits "$1" $((7 + 3 * $2)) settle >"$work/settled"
    edits "$1" $((7 + 3 * $2)) show >"$work/shown"
    echo $(($(instructions "$work/settled") - $(instructions "$work/shown")))
}

# A script that begins with so many calls, and grows by one a settle to so many.
growing() { # from, to
    awk -v from="$1" -v to="$2" 'BEGIN {
        print "add script1", from
        for (line = 1; line <= from; line++) print "+0 close(9)=-1"
        print "settle"
        for (line = from + 1; line <= to; line++) {
            print "edit script1", line, 0, 1
            print "+0 close(9)=-1"
            print "settle"
        }
    }'
}

# The mean cost of one of ten settles, in instructions.
each_of_ten() { # the input with them, the input without
    echo $((($(instructions "$1") - $(instructions "$2")) / 10))
}

measure "$turns" ns nanoseconds
if command -v valgrind >/dev/null; then
    turns=$(((turns + 9) / 10))
    measure "$turns" instructions instructions
    awk -v turns="$turns" -v short="$(last "$turns" 58)" -v long="$(last "$turns" 178)" 'BEGIN {
        printf "a kept event costs %.0f instructions, the aim is 45\n", (long - short) / turns / 360
    }'
    growing 1 4096 >"$work/grown"
    growing 1 4086 >"$work/growing"
    growing 4096 4096 >"$work/script"
    edits 10 4096 settle >"$work/edited"
    edits 0 4096 settle >"$work/whole"
    awk -v grown="$(each_of_ten "$work/grown" "$work/growing")" -v whole="$(each_of_ten "$work/edited" "$work/whole")" 'BEGIN {
        printf "an event more after 4,096 settles %d instructions, an edit of the last of 4,096 events %d: %.2f times\n", grown, whole, grown / whole
        exit grown > 1.5 * whole
    }'
fi
