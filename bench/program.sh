# Gives each shell program that reads it the built program, a folder for its work, and generated scripts.
# PROGRAM names another build.
set -eu
top=$(cd "$(dirname "$0")/.." && pwd)
program=${PROGRAM:-$top/crates/pdregress/out/pdregress}
work=$(mktemp -d)
trap 'rm -rf "$work"' EXIT
[ -n "${PROGRAM:-}" ] || "$top/prove" pdregress

# Scripts that open, bind and then listen on the descriptor again and again, each at times of its own.
generate() { # how many, and of how many events
    awk -v scripts="$1" -v events="$2" 'BEGIN {
        for (s = 1; s <= scripts; s++) {
            print "add script" s, events
            print "0 socket(..., SOCK_STREAM, IPPROTO_TCP) = 3"
            print "+0 bind(3, ..., ...) = 0"
            for (e = 3; e <= events; e++)
                printf "+0.%03d listen(3, %d) = 0\n", (s * 7 + e * 13) % 1000, e
        }
    }'
}

# A function for awk: the seven events that open a connection, whose SYN comes at so many milliseconds.
opening='function opening(syn) {
    print "0 socket(..., SOCK_STREAM, IPPROTO_TCP) = 3"
    print "+0 bind(3, ..., ...) = 0"
    print "+0 listen(3, 1) = 0"
    printf "+0.%03d < S 0:0(0) win 32792 <mss 1000,sackOK,nop,nop,nop,wscale 7>\n", syn
    print "+0 > S. 0:0(0) ack 1 <...>"
    print "+0.1 < . 1:1(0) ack 1 win 257"
    print "+0 accept(3, ..., ...) = 4"
}
'

# Scripts of 60 events that write 17 segments one after the other; the 6th and the 12th are sent again when the timer expires.
transfers() { # how many
    awk -v scripts="$1" "$opening"'BEGIN {
        for (s = 1; s <= scripts; s++) {
            print "add script" s, 60
            opening(s % 1000)
            for (segment = 1; segment <= 17; segment++) {
                from = 1 + (segment - 1) * 1000
                packet = sprintf("> P. %d:%d(1000) ack 1", from, from + 1000)
                print "+0 write(4, ..., 1000) = 1000"
                print "+0 " packet
                if (segment % 6 == 0) print "+1 " packet
                printf "+0.%03d < . 1:1(0) ack %d win 257\n", 100 + s % 50, from + 1000
            }
        }
    }'
}

# The instructions that the program takes for an input, with words after its name; whatever its status.
instructions() { # the input, and the words
    input=$1
    shift
    valgrind --tool=callgrind --callgrind-out-file="$work/calls" "$program" "$@" <"$input" >/dev/null 2>"$work/errors" || [ $? -le 2 ]
    sed -n 's/^summary: \([0-9]*\).*/\1/p; s/^totals: \([0-9]*\).*/\1/p' "$work/calls" | head -n 1
}
