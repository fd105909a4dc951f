#!/bin/sh
# Measures how the time of pdregress, without and with --explain, and of pdrecord grows with scripts that are made to be hard
# to read, to explain or to lay out: strings, comments, code and notes full of what could open, close or answer, and 65,536
# octets of each kind of token. Prints for each the milliseconds at 16,384, 32,768 and 65,536 octets. No program may take more
# than 2 seconds, and one that takes more than 50 ms at the greatest size no more than 6 times as long as at a quarter of it.
# The status tells whether that is so. RECORD names another build of pdrecord.
#
#   bench/worst_case.sh [KIND..]      the kinds of scripts that are named, all by default
. "$(dirname "$0")/program.sh"
record=${RECORD:-$top/crates/pdrecord/out/pdrecord}
[ -n "${RECORD:-}" ] || "$top/pdrecord" </dev/null >/dev/null

# The name of each kind; what its script begins with, what is repeated, and what it ends with, between `|`. In these `\n` ends a
# line, and `@` stands for a socket and a call of `bind` up to its second argument, `$` for what follows that.
kinds() {
    cat <<'END'
answers-in-a-string|@"|= 0 () /* |"$
answers-in-strings|@|"= 0 ()" "/*" |$
answers-in-lines-of-a-string|@"\n|= 0 (a) /* b, c\n|"$
answers-in-a-comment|@/* |= 0 () // |*/ ...$
answers-in-code|@%{|= 0 () /* |}%$
answers-in-arguments|@|a [= 0 (b) /* c */], |d$
answers-in-a-recording|+0 socket(..., SOCK_STREAM, 0) = 3\n+0 bind(3, "|= 0 () /* |"$
brackets-in-a-note|0 socket(..., SOCK_STREAM, 0) = 3 (|() /* ) */ |)\n
brackets-in-a-string-of-a-note|0 socket(..., SOCK_STREAM, 0) = 3 ("|) /* |")\n
openers-in-a-string|@"|/*`%{(//|"$
openers-in-a-comment|@/* |"`%{( // /* |*/ ...$
openers-in-code|@%{|"`( // /* |}%$
openers-that-stay-open|@|/* %{ " ` |$
comments-that-stay-open|@|/*/ |$
comments-in-a-call|@|/* ) = 0 */|...$
comments-in-a-line|0 socket(..., SOCK_STREAM, 0) = 3| /* = 0 (/* */|\n
comments-in-lines||// = 0 (a) /* = b\n|0 socket(..., SOCK_STREAM, 0) = 3\n
comments-between-tokens|+0|/*a*/ | socket(..., SOCK_STREAM, 0) = 3\n
comments-like-a-trace|0 socket(..., SOCK_STREAM, 0) = 3\n| //= at 0.000000 CLOSED connection:none\n|
stars-in-a-comment|@/*|*|*/ ...$
slashes-in-comments|@|/*/ */|...$
blanks|0 socket(..., SOCK_STREAM, 0) = 3\n| |
blank-lines||               \n|0 socket(..., SOCK_STREAM, 0) = 3\n
whole-numbers|@|1 |$
hexadecimal-numbers|@|0x1 |$
words|@|a |$
decimals|@|.5 |$
dots|@|... |$
options|@|--a=) |$
strings|@|"a" |$
commands|@|`a` |$
code|@|%{a}% |$
symbols|@|+|$
a-whole-number|@|1|$
a-hexadecimal-number|@0x|1|$
a-word|@|a|$
a-decimal|@1.|1|$
decimals-of-decimals|@|1.1|$
an-option|@--a=|-|$
dashes|@|-|$
backslashes-in-a-string|@"|\"|"$
a-command|@`|"/*%{|`$
arguments|@|1,|1$
nested-brackets|@|[{([{([{([{(1)}])}])}])}]),|1$
brackets-that-stay-open|@|(|$
brackets-in-strings|@|"(" |$
options-of-the-header||--tolerance_usecs=1 |\n
lines-of-options||--tolerance_usecs=1\n|
other-options||--a=b |\n
commands-of-the-header||`a` |\n
events-in-a-line|0 socket(..., SOCK_STREAM, 0) = 3 |+0 close(9) = -1 EBADF |\n
events-in-lines|0 socket(..., SOCK_STREAM, 0) = 3\n|+0 close(9) = -1 EBADF\n|
events-of-a-recording|+0 socket(..., SOCK_STREAM, 0) = 3\n|+0 close(9) = -1 EBADF\n|
events-over-lines|0 socket(..., SOCK_STREAM, 0) = 3\n|+0 close(9) = -1 EBADF (a) // = 0\n|
expected-packets|0 socket(..., SOCK_STREAM, 0) = 3\n|* > . 1:1(0) ack 1 win 1 <nop>\n|
packets-with-options|0 socket(..., SOCK_STREAM, 0) = 3\n|+0 < S 0:0(0) win 32792 <mss 1000,sackOK,nop,nop,nop,wscale 7>\n|
END
}

# The script of one kind, of at most so many octets.
script() { # BEFORE|PART|AFTER OCTETS
    awk -v octets="$2" '
        function text(field) {
            gsub(/@/, "0 socket(..., SOCK_STREAM, 0) = 3\n+0 bind(3, ", field)
            gsub(/\$/, ", ...) = 0\n", field)
            gsub(/\\n/, "\n", field)
            return field
        }
        BEGIN {
            split(ARGV[1], fields, "|")
            before = text(fields[1]); part = text(fields[2]); after = text(fields[3])
            count = int((octets - length(before) - length(after) - 1) / length(part))
            printf "%s", before
            while (count-- > 0) printf "%s", part
            print after
        }
    ' "$1" | sed '$ { /^$/d }'
}

milliseconds() { # the least of three runs: the input, and a program with its words
    input=$1
    shift
    least=
    for run in 1 2 3; do
        begin=$(date +%s%N)
        timeout 60 "$@" <"$input" >/dev/null 2>&1 || [ $? -le 2 ] || echo "bench/worst_case.sh: $* came to no end" >&2
        took=$((($(date +%s%N) - begin) / 1000000))
        [ -n "$least" ] && [ "$least" -le "$took" ] || least=$took
        [ "$took" -lt 1000 ] || break
    done
    echo "$least"
}

measure() { # WHAT, the ending of the inputs, and a program with its words
    what=$1
    ending=$2
    shift 2
    quarter=$(milliseconds "$work/16384$ending" "$@")
    half=$(milliseconds "$work/32768$ending" "$@")
    whole=$(milliseconds "$work/65536$ending" "$@")
    echo "$kind $what $quarter $half $whole"
    [ "$whole" -le 2000 ] || bad=1
    [ "$whole" -le 50 ] || [ "$whole" -le $((6 * quarter)) ] || bad=1
}

bad=0
kinds >"$work/kinds"
while IFS= read -r line; do
    kind=${line%%|*}
    [ $# -eq 0 ] || case " $* " in *" $kind "*) ;; *) continue ;; esac
    for octets in 16384 32768 65536; do
        script "${line#*|}" "$octets" >"$work/$octets.pkt"
        { echo "add hard $(wc -l <"$work/$octets.pkt")" && cat "$work/$octets.pkt"; } >"$work/$octets"
    done
    measure run '' "$program"
    measure explain '' "$program" --explain
    measure record .pkt "$record"
done <"$work/kinds"
exit $bad
