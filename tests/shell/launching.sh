# Tests of the two programs by their names in a tree: proved, unproved, half built, edited, and where nothing can be run; with
# arguments, pipes, closed streams and signals.
. "$top/tests/shell/crates.sh"

first="unproved: building first, then running without proofs; $build/prove"

unproved() { # PROGRAM: the first line on standard error
    printf '! %s: %s %s proves it\n' "$1" "$first" "$1"
}

launch() { # PROGRAM WORD.. on an empty input
    program=$1
    shift
    with_rt "$build/$program" "$@" </dev/null
}

given() { # what a shell program writes whose arguments are PROGRAM WORD..
    with_rt sh -c "$1" sh "$build/pdregress"
}

launched() { # the wanted output with an empty input: PROGRAM WORDS
    printf '%s octets=0\n' "$1"
    unproved "${1%% *}"
    printf '! an error\nstatus 0'
}

test_unproved() {
    make_crates
    for program in $programs; do
        expect "$program-unproved" "$(launched "$program a  b")" launch "$program" a '' b
        expect "$program-unproved-status" "$(unproved "$program"; echo status 7)" launch "$program" status 7
        expect "$program-refuses-what-is-not-proved" "$(printf "! %s isn't proved and built, or has changed since: run ./prove %s\nstatus 2" "$program" "$program")" launch "$program" a --proved
    done
    expect words-of-the-tool "$(launched 'pdregress -- --cases x')" launch pdregress -- --cases x
    expect a-word-with-a-newline "$(printf 'pdregress a\nb octets=0\n'; unproved pdregress; printf '! an error\nstatus 0')" launch pdregress "$(printf 'a\nb')"
    expect from-its-folder "$(launched pdregress | sed "s,$build/prove,./prove,; s/ss o/ss  o/")" in_folder "$build" launch pdregress
    expect nothing-is-written "$(printf '0\nstatus 0')" written
}

written() { # how many files of a tree are made or changed by a run
    touch "$work/before"
    sleep 0.1
    launch pdregress >/dev/null 2>&1
    find "$build" -newer "$work/before" | wc -l
}

test_streams() {
    expect slow-input "$(printf 'pdregress  octets=4\n'; unproved pdregress; printf '! an error\nstatus 0')" given '{ printf a; sleep 2.5; printf bcd; } | "$1"'
    expect closed-input "$(unproved pdregress; printf '! pdregress: 17 Read\nstatus 2')" given '"$1" <&-'
    expect input-of-a-folder "$(unproved pdregress; printf '! pdregress: 17 Read\nstatus 2')" given '"$1" </'
    expect help-reads-nothing "$(launched 'pdregress --help')" given '(sleep 30 & echo $! >"$NOTES/sleeps"; wait) | { "$1" --help; s=$?; kill "$(cat "$NOTES/sleeps")"; exit $s; }'
    expect closed-output "$(unproved pdregress; printf '! an error\n! pdregress: 18 Write\nstatus 2')" given '"$1" >&-'
    expect full-output "$(unproved pdregress; printf '! an error\n! pdregress: 18 Write\nstatus 2')" given '"$1" >/dev/full'
    expect closed-errors "$(printf 'pdregress  octets=0\nstatus 0')" given '"$1" </dev/null 2>&-'
    expect full-errors "status 2" given '"$1" --proved </dev/null 2>/dev/full'
    expect all-closed "status 2" given '"$1" <&- >&- 2>&-'
    expect reader-that-leaves "$(printf 'line\n2\n'; unproved pdregress; printf '! pdregress: 18 Write\nstatus 0')" given '{ "$1" lines 50000 </dev/null; echo $? >"$NOTES/left"; } | head -n 1; cat "$NOTES/left"'
    expect a-pipe "$(printf '3\n'; unproved pdregress; echo status 0)" given '"$1" lines 3 </dev/null | wc -l'
}

test_limits() {
    expect no-text "$(printf "! pdregress: unproved: NotText: an argument isn't UTF-8\nstatus 2")" launch pdregress "$(printf '\377')"
    expect too-much-input "$(unproved pdregress; printf '! pdregress: unproved: TooMuchInput: the input has 64 MiB or more\nstatus 2')" given 'head -c 67108864 /dev/zero | "$1"'
    expect too-much-output "$(unproved pdregress; printf '! pdregress: unproved: TooMuchOutput: an output has more than 1 MiB\nstatus 2')" launch pdregress writes
    expect too-slow "$(unproved pdregress; printf "! pdregress: unproved: TooSlow: the program didn't end within 600 seconds\nstatus 2")" launch pdregress lasts
    expect a-fault "$(unproved pdregress; printf '! pdregress: unproved: Faulted: kind=panic at=a.rt:1:2: a failed unwrap\n! an error\nstatus 2')" launch pdregress faults
    expect tool-fails "$(unproved pdregress; printf '! pdregress: unproved: ToolFailed: `rt try` ended with status 2\n! no linker\nstatus 2')" launch pdregress fails
    expect last-line-decides "$(unproved pdregress; printf '! checked: ended status=0\n! run=ended status=0 runners=1 proved=no\nstatus 1')" launch pdregress lies
    echo wrong >>"$build/crates/low/src/lib.rt"
    for program in $programs; do
        expect "$program-does-not-compile" "$(unproved "$program"; printf "! %s: unproved: NotCompiled: the program doesn't compile\n! %s/src/lib.rt:1:2: error[mismatched-types]: wrong\nstatus 2" "$program" "$build/crates/$program")" launch "$program"
    done
    sed -i /wrong/d "$build/crates/low/src/lib.rt"
    expect no-kit "$(printf "! pdregress: unproved: NoKit: the Rattle kit's command 'rt' has to be on the PATH\nstatus 2")" without_rt "$build/pdregress"
    expect no-kit-to-prove "$(printf "! prove: the Rattle kit's command 'rt' has to be on the PATH\nstatus 2")" without_rt "$build/prove"
}

without_rt() { # COMMAND.. where none of the folders to search has the kit
    mkdir -p "$work/bare"
    for tool in cat dirname env readlink sh; do
        ln -sf "$(command -v "$tool")" "$work/bare/$tool"
    done
    ln -sf "$(python3 -c 'import sys; print(sys.executable)')" "$work/bare/python3"
    env PATH="$work/bare" "$@" </dev/null
}

signalled() { # SIGNAL: the status of a launcher that it ends, and what goes on or is left of what it started
    rm -rf "$NOTES/hangs" "$work/room"
    mkdir "$work/room"
    env --default-signal TMPDIR="$work/room" PATH="$kit/bin:$PATH" \
        "$build/pdregress" hangs </dev/null 2>/dev/null &
    until [ -s "$NOTES/hangs" ]; do sleep 0.1; done
    kill -"$1" $!
    { wait $! || echo "$?"; } 2>/dev/null
    for process in $(cat "$NOTES/hangs"); do
        tries=0
        while kill -0 "$process" 2>/dev/null && [ "$tries" -lt 30 ]; do tries=$((tries + 1)) && sleep 0.1; done
        [ "$tries" -lt 30 ] || echo 'goes on'
    done
    ls "$work/room"
}

reading() { # SIGNAL: the status of a launcher that it ends while it reads
    rm -f "$work/pipe"
    mkfifo "$work/pipe"
    env --default-signal PATH="$kit/bin:$PATH" "$build/pdregress" <"$work/pipe" 2>"$work/begun" &
    exec 3>"$work/pipe"
    until [ -s "$work/begun" ]; do sleep 0.1; done
    sleep 0.3
    kill -"$1" $!
    { wait $! || echo "$?"; } 2>/dev/null
    exec 3>&-
}

test_signals() {
    expect interrupted-unproved "$(printf '130\nstatus 0')" signalled INT
    expect terminated-unproved "$(printf '143\nstatus 0')" signalled TERM
    expect hung-up-unproved "$(printf '129\nstatus 0')" signalled HUP
    expect interrupted-while-it-reads "$(printf '130\nstatus 0')" reading INT
    expect hung-up-while-it-reads "$(printf '129\nstatus 0')" reading HUP
}

quietly_proved() {
    prove "$@" 2>/dev/null
}

each_program() { # what each program says of its words and an input
    for program in $programs; do
        echo input | without_rt "$build/$program" "$@" || echo "$program: status $?"
    done
}

edit() { # FILE
    echo '# an edit' >>"$1"
}

after_an_edit() { # WHICH COMMAND..
    which=$1
    shift
    "$@"
    for program in $programs; do
        expect "$program-after-an-edit-$which" "$(launched "$program a")" launch "$program" a
        expect "$program-refuses-after-an-edit-$which" "$(printf "! %s isn't proved and built, or has changed since: run ./prove %s\nstatus 2" "$program" "$program")" launch "$program" --proved
    done
    quietly_proved
    expect "proved-again-after-an-edit-$which" "$(printf '%s \n' $programs; echo status 0)" each_program --proved
}

test_proved() {
    quietly_proved
    expect proved "$(printf '%s a b\n' $programs; echo status 0)" each_program a b
    expect proved-and-asked-for "$(printf '%s a b\n' $programs; echo status 0)" each_program --proved a b
    for file in crates/low/src/lib.rt crates/high/proofs/Lib.antt crates.txt HANDLES; do
        touch "$build/$file"
        expect "proved-where-${file##*/}-is-touched" "$(printf '%s \n' $programs; echo status 0)" each_program --proved
        after_an_edit "of-${file##*/}" edit "$build/$file"
    done
    : >"$build/crates/low/src/.lib.rt.swp"
    expect proved-beside-the-file-of-an-editor "$(printf '%s \n' $programs; echo status 0)" each_program --proved
    edit "$build/crates/low/src/lib.rt"
    sed -i '$d' "$build/crates/low/src/lib.rt"
    expect proved-after-an-edit-that-is-undone "$(printf '%s \n' $programs; echo status 0)" each_program --proved
    after_an_edit that-adds-a-file cp -p "$build/prove" "$build/crates/low/proofs/More.antt"
    after_an_edit that-renames-a-file mv "$build/crates/low/proofs/More.antt" "$build/crates/low/proofs/Other.antt"
    after_an_edit that-removes-a-file rm "$build/crates/low/proofs/Other.antt"
    chmod -x "$build/crates/pdrecord/out/pdrecord"
    expect half-built "$(launched "pdrecord a")" launch pdrecord a
}

many() { # the answers to cases: `run_cases.py` WORD..
    rm -rf "$work/cases" "$work/answers"
    mkdir "$work/cases" "$work/answers"
    for input in a b c d e; do printf '%s\n' "$input" >"$work/cases/$input"; done
    printf 'x y\n' >"$work/cases/a.args"
    printf 'status\n3\n' >"$work/cases/b.args"
    : >"$work/cases/c.args"
    printf 'lasts\n' >"$work/cases/d.args"
    printf 'faults\n' >"$work/cases/e.args"
    # shellcheck disable=SC2086
    with_rt python3 -B "${from:-$build}/tools/run_cases.py" "$@" "$work/cases" "$work/answers" ${each:+-- $each} || return
    for file in "$work"/answers/*; do echo "${file##*/}: $(cat "$file")"; done
}

many_with_a_word() { # PROGRAM
    each=one many "$1" | sed -n '/^[ac].output/p'
}

many_of_another_tree() { # PROGRAM
    from=$work/other_tree many --tree "$build" "$1" | sed -n '/^[ac].output/p'
}

test_cases() {
    expect cases "$(printf '%s\n' 'a.errors: an error' 'a.output: pdrecord x y octets=2' 'a.status: 0' 'b.errors: ' 'b.output: ' 'b.status: 3' \
        'c.errors: an error' 'c.output: pdrecord  octets=2' 'c.status: 0' 'd.errors: ' 'd.output: ' "d.status: TooSlow: the program didn't end within 7 seconds" \
        'e.errors: an error' 'e.output: ' 'e.status: Faulted: kind=panic at=a.rt:1:2: a failed unwrap'; echo status 0)" many --seconds 7 pdrecord
    expect cases-with-words-before-their-own "$(printf '%s\n' 'a.output: pdrecord one x y octets=2' 'c.output: pdrecord one octets=2'; echo status 0)" many_with_a_word pdrecord
    mkdir "$work/other_tree"
    cp -R "$build/tools" "$work/other_tree"
    expect cases-of-another-tree "$(printf '%s\n' 'a.output: pdrecord x y octets=2' 'c.output: pdrecord  octets=2'; echo status 0)" many_of_another_tree pdrecord
    echo wrong >>"$build/crates/low/src/lib.rt"
    expect cases-of-what-does-not-compile "$(printf '! %s\n' "pdrecord: unproved: NotCompiled: the program doesn't compile" "$build/crates/pdrecord/src/lib.rt:1:2: error[mismatched-types]: wrong"; echo status 2)" many pdrecord
    sed -i /wrong/d "$build/crates/low/src/lib.rt"
    expect cases-where-the-tool-stops "$(printf '! %s\n' 'pdrecord: unproved: ToolFailed: `rt try` ended with status 2'; echo status 2)" env STOPS=1 sh -c "PATH='$kit/bin:$PATH' python3 -B '$build/tools/run_cases.py' pdrecord '$work/cases' '$work/answers'"
}

test_unproved
test_streams
test_limits
test_cases
test_signals
test_proved
