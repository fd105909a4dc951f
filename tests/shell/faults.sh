# Tests the built programs where the system refuses what they need: arguments that aren't UTF-8 and memory for threads; how
# many threads they start; and the scripts of files.

# Each program prints the same, with its own name, of arguments that can't be read.
test_words() {
    for program in pdregress pdrecord; do
        expect "$program-arguments-that-are-no-text" "$(printf "! $program: the arguments can't be read as text\nstatus 2")" "$("$top/tools/proved_program.sh" "$program")" "$(printf '\377')"
    done
}

# A folder can be opened and not read: no program takes that for the end of its input.
test_reads() {
    for program in pdregress pdrecord; do
        for words in '' --explain --trace; do
            case $program$words in pdregress--trace | pdrecord--explain) continue ;; esac
            # shellcheck disable=SC2086
            expect "$program-input-that-cannot-be-read$words" "$(printf "! $program: 17 Read\nstatus 2")" from_folder "$("$top/tools/proved_program.sh" "$program")" $words
        done
    done
}

from_folder() { # COMMAND.. with a folder as its input
    "$@" </
}

# Settles a script with workers where a thread takes a stack of 256 MB.
settle_within() ( # KILOBYTES WORKERS
    ulimit -s 262144
    ulimit -v "$1"
    printf 'add a 1\n0 socket(..., SOCK_STREAM, IPPROTO_TCP) = 3\n' |
        timeout 10 "$("$top/tools/proved_program.sh" pdregress)" --workers "$2"
)

# Settles a script with workers, and prints how many of these there are then: all threads but the one that serves and the one
# that starts workers.
count_workers() ( # WORKERS
    mkfifo "$work/commands"
    # shellcheck disable=SC2016
    timeout 20 sh -c 'echo $$ >"$0" && exec "$@"' "$work/number" "$("$top/tools/proved_program.sh" pdregress)" --workers "$1" \
        <"$work/commands" >"$work/settled" &
    exec 3<>"$work/commands"
    printf 'add a 1\n0 socket(..., SOCK_STREAM, IPPROTO_TCP) = 3\nsettle\n' >&3
    wanted=$(($1 + 2))
    for _ in $(seq 100); do
        sleep 0.1
        set -- "/proc/$(cat "$work/number" 2>/dev/null)/task"/*
        [ $# -lt "$wanted" ] || break
    done
    # Any more of them would have come by then.
    sleep 0.5
    set -- "/proc/$(cat "$work/number")/task"/*
    echo "$(($# - 2)) workers"
    exec 3>&-
    wait
)

# There is memory for no thread, for the one that starts the workers, or for that and one of two workers.
test_threads() {
    expect no-thread "$(printf '! pdregress: 19 OutOfMemory\nstatus 2')" settle_within 100000 1
    expect no-thread-for-a-worker "$(printf '! pdregress: 12 NoWorkers\nstatus 2')" settle_within 400000 1
    expect no-thread-for-two-workers "$(printf '! pdregress: 12 NoWorkers\nstatus 2')" settle_within 400000 2
    expect a-thread-for-one-of-two-workers "$(printf 'a pass 1\ntotal 1 pass 1 fail 0 syntax 0 unsupported 0 limit 0 pending 0\nstatus 0')" settle_within 700000 2
    expect as-many-workers-as-are-asked-for "$(printf '3 workers\nstatus 0')" count_workers 3
}

# Scripts of files: one that is recorded, one that is too large, one that isn't there, and none after that.
test_files() {
    mkdir "$work/files"
    printf '0 socket(..., SOCK_STREAM, 0) = 0\n// end' >"$work/files/a b.pkt"
    seq 4097 >"$work/files/large.pkt"
    record=$("$top/tools/proved_program.sh" pdrecord)
    one=$(printf 'recorded 2 a b.pkt\n+0 socket(..., SOCK_STREAM, 0) = 3\n// end')
    large=$(printf 'refused 1 large.pkt\npdrecord: 2 TooLarge')
    expect a-file "$(printf '%s\nstatus 0' "$one")" in_folder "$work/files" "$record" 'a b.pkt'
    expect files "$(printf '%s\n%s\n%s\nstatus 1' "$large" "$one" "$large")" in_folder "$work/files" "$record" large.pkt 'a b.pkt' large.pkt
    expect no-file "$(printf '%s\n! pdrecord: none.pkt: 17 Read\nstatus 2' "$one")" in_folder "$work/files" "$record" 'a b.pkt' none.pkt large.pkt
    expect files-under-settings-that-are-none "$(printf '! pdrecord: 20 NotToml\nstatus 2')" in_folder "$work/files" "$record" --settings mss -- 'a b.pkt'
}

test_words
test_reads
test_files
test_threads
