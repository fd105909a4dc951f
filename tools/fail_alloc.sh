#!/bin/sh
# Refuses each allocation in turn, one a run, the numbers going up until runs meet no refusal. The rows are:
#   - the calls below the programs, table by table of crates/test_book/memory.txt, and those of a desk and of its workers,
#     and a run of the program over memory, of crates/test_desk/memory.txt: a call that is refused is made again, and it
#     and all calls after it are to answer as with memory, or as a row says of a worker that left. Where the
#     runner of the rows found no memory, no call did.
#   - the program test_book, with its argument `memory`, which lets a first refusal pass and makes the call again.
#   - pdregress, with no input, with a script of one line, with an edit, with those of examples/ or the ones named, and with
#     a settings text that is taken and one that is refused, each without workers, with one and with two; and with the edit
#     and `--rules`. It reports that by status 2 and the fault 19 (with workers also 12, where they all left), and what it
#     wrote is a prefix of what it writes with memory; or the refusal made no difference.
#   - pdrecord, with no input, with a script that is recorded, with a trace too, and with one that isn't. It reports that
#     by status 2 and the fault 19 and writes nothing, or the refusal made no difference.
# No run may take longer than a minute: some wait seconds for a thread that can't be made. Prints a line for each row, with
# the refusals met, and `N passed, M failed` last.
# Needs a C compiler. PROGRAM, RECORD, BOOK and DESK name other builds of pdregress, pdrecord, test_book and test_desk.
#
#   tools/fail_alloc.sh [INPUT..]    all, in minutes; the programs are proved and built first, where need be
#   tools/fail_alloc.sh --part       what the gate takes, in less than a minute: of a row with more than some allocations each
#                                    second, third .. is refused; the programs are those that are built
set -eu
top=$(cd "$(dirname "$0")/.." && pwd)
# How many runs a row has about, in a part; 0 for all.
most=0
[ "${1:-}" != --part ] || { most=80; shift; }
work=$(mktemp -d)
trap 'rm -rf "$work"' EXIT
passed=0
failed=0

finish() {
    echo "$passed passed, $failed failed"
    [ "$failed" -eq 0 ]
    exit
}

lack() { # what is missing
    echo "FAILED memory: $1"
    failed=1
    finish
}

built() { # NAME: its proved program
    [ "$most" -gt 0 ] || "$top/prove" "$1"
    "$top/tools/proved_program.sh" "$1"
}

cc -O2 -shared -fPIC -o "$work/fail_alloc.so" "$top/tools/fail_alloc.c" -ldl 2>"$work/error" ||
    lack "no C compiler: apt-get install --no-install-recommends gcc libc6-dev"
book=${BOOK:-$(built test_book)} || lack "test_book isn't built"
desk=${DESK:-$(built test_desk)} || lack "test_desk isn't built"
program=${PROGRAM:-$(built pdregress)} || lack "pdregress isn't built"
record=${RECORD:-$(built pdrecord)} || lack "pdrecord isn't built"

begin() { # NAME: what is run on $input is called so
    name=$1
    met=0
    idle=0
    is_well=true
}

complain() {
    is_well=false
    echo "$name: $*"
}

end() { # what there is to say of a row
    if $is_well; then
        passed=$((passed + 1))
        echo "ok memory $name: $met refusals met, one a run$*"
    else
        failed=$((failed + 1))
        echo "FAILED memory $name: $met refusals met"
    fi
}

# Keeps the output and the status with memory; sets the first allocation to refuse, and how far it is to the next.
run_whole() { # COMMAND..
    whole=0
    env LD_PRELOAD="$work/fail_alloc.so" FAIL_AT=0 FAIL_COUNT="$work/count" "$@" \
        <"$input" >"$work/whole" 2>"$work/error" || whole=$?
    step=1
    [ "$most" -eq 0 ] || step=$((1 + $(cat "$work/count") / most))
    n=$((1 + (passed + failed) % step))
}

refuse() { # COMMAND..: runs it on $input with its Nth allocation refused; whether it made so many
    status=0
    rm -f "$work/met"
    timeout 60 env LD_PRELOAD="$work/fail_alloc.so" FAIL_AT="$n" FAIL_MARK="$work/met" "$@" \
        <"$input" >"$work/out" 2>"$work/error" || status=$?
    if [ "$status" -ge 124 ]; then
        complain "allocation $n: hangs, or ended by a signal ($status)"
    fi
    if [ "$n" -le 100000 ] && [ -e "$work/met" ]; then
        met=$((met + 1))
        idle=0
    else
        idle=$((idle + 1))
    fi
    [ "$idle" -eq 0 ]
}

is_prefix() { # FILE OF: the octets of FILE begin OF
    cmp -s -n "$(wc -c <"$1")" "$1" "$2"
}

is_reported() { # whether the program reported that it was out of memory
    [ "$status" -eq 2 ] && grep -q '^pdregress: 19 \|^pdregress: 12 \|^pdrecord: .*19 \|memory' "$work/error"
}

# Which of a program's allocations is the Nth depends on its threads, so three numbers in a row have to meet no refusal.
try_program() { # NAME COMMAND..
    begin "$1"
    shift
    reported=0
    run_whole "$@"
    while [ "$idle" -lt 3 ]; do
        refuse "$@" || true
        if is_reported; then
            reported=$((reported + 1))
            is_prefix "$work/out" "$work/whole" || complain "allocation $n: no prefix was written"
        elif [ "$status" -ne "$whole" ] || ! cmp -s "$work/out" "$work/whole"; then
            complain "allocation $n: other output, status $status: $(cat "$work/error")"
        fi
        n=$((n + step))
    done
    end "; reported $reported times"
}

try_test() { # NAME COMMAND..: a test that makes again what is refused
    begin "$1"
    shift
    run_whole "$@"
    while refuse "$@"; do
        [ "$status" -eq 0 ] || complain "allocation $n: status $status: $(tail -n 3 "$work/out" "$work/error")"
        n=$((n + step))
    done
    [ "$status" -eq 0 ] || complain "fails with memory"
    end
}

try_rows() { # NAME PROGRAM: the rows of $input
    begin "$1"
    again=0
    run_whole "$2" stories
    while [ "$idle" -lt 3 ]; do
        refuse "$2" stories || ! grep -q 'another of its answers' "$work/out" || complain "another answer with memory"
        case $status in
            0) ! grep -q 'was made again\|another of its answers' "$work/out" || again=$((again + 1)) ;;
            2) ! grep -q 'SAID\|differ$' "$work/out" || complain "allocation $n: ended late" ;;
            *) complain "allocation $n: status $status: $(grep -B1 SAID "$work/out")" ;;
        esac
        n=$((n + step))
    done
    [ "$status" -eq 0 ] || complain "fails with memory"
    [ "$again" -gt 0 ] || complain "no call and no worker met a refusal"
    end "; $again of them by a call or a worker"
}

try_tables() { # FILE PROGRAM: each table of rows of the file
    rm -f "$work"/table*
    awk -v work="$work/table" '/^== / { file = work sprintf("%02d", ++tables) } { print > file }' "$1"
    for input in "$work"/table*; do
        try_rows "$(sed -n 's/^== //p' "$input")" "$2"
    done
}

try_tables "$top/crates/test_book/memory.txt" "$book"
try_tables "$top/crates/test_desk/memory.txt" "$desk"

input=/dev/null
try_test "test_book memory" "$book" memory

cd "$top"
[ $# -gt 0 ] || set -- examples/*.txt
printf 'add a 1\n0 socket(..., SOCK_STREAM, IPPROTO_TCP) = 3\n' >"$work/line"
{
    cat examples/send.txt
    echo 'edit send 9 1 1'
    echo '+0 > P. 1:2001(2000) ack 1'
    echo 'settle'
} >"$work/edit"
for workers in 0 1 2; do
    for input in /dev/null "$work/line" "$work/edit" "$@"; do
        try_program "pdregress, $(basename "$input"), --workers $workers" "$program" --workers "$workers"
    done
    input=/dev/null
    for settings in 'min_rto_us = 200000' 'mss = 10'; do
        try_program "pdregress, $settings, --workers $workers" "$program" --workers "$workers" --settings "$settings"
    done
done

input=$work/edit
try_program 'pdregress, edit, --rules' "$program" --rules

cat >"$work/script" <<END
0 socket(/* a */ ..., SOCK_STREAM, 0) = 3 (note) // b
+0 bind(3, ..., ...) = 0
+0 listen(3, 1) = 0
+0.1 < S 0:0(0) win 32792 <mss 1000,sackOK,nop,nop,nop,wscale 7>
+0 > S. 0:0(0) ack 1 <...>
// c
+0.1 < . 1:1(0) ack 1 win 257
+0 accept(3, ..., ...) = 4
+0 write(4, ..., 2000) = 1
+1.5 < . 1:1(0) ack 1 win 257 <nop,nop,sack 1001:2001>
END
{
    cat "$work/script"
    echo '+0 shutdown(4) = 0'
} >"$work/refused"
for input in /dev/null "$work/script" "$work/refused"; do
    try_program "pdrecord, $(basename "$input")" "$record"
    try_program "pdrecord --trace, $(basename "$input")" "$record" --trace
done
finish
