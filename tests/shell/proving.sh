# Tests of ./prove, on crates that a fake `rt` proves.
. "$top/tests/shell/crates.sh"

begun() { # the lines of what is begun, in the order of the names
    prove "$@" 2>&1 | sed 's/;.*//' | LC_ALL=C sort
}

two_calls() { # the lines of two, of which one begins while the other proves: it has nothing to do
    (TAKES=1 prove pdregress 2>&1 | sed 's/;.*//' >"$work/first") &
    while [ ! -e "$NOTES/trees" ]; do sleep 0.1; done
    prove pdregress >"$work/second" 2>&1
    wait
    LC_ALL=C sort "$work/first" "$work/second"
}

trees_of() { # PROGRAM..: each that is up to date, and in how many trees they were proved
    for program in "$@"; do
        with_rt "$build/tools/proved_program.sh" "$program" >"$work/built" || return
        echo "$program $(tail -n "$#" "$NOTES/trees" | sort -u | wc -l)"
    done
}

hung_up() { # the status of one whose terminal is closed, as `nohup` begins it
    (
        trap '' HUP
        TAKES=1 exec env PATH="$kit/bin:$PATH" "$build/prove" pdregress
    ) 2>/dev/null &
    while [ ! -e "$NOTES/trees" ]; do sleep 0.1; done
    kill -HUP $!
    wait $! && echo 0
}

interrupted() { # the lines of one that a signal ends while it proves, and its status
    (TAKES=60 exec env PATH="$kit/bin:$PATH" "$build/prove" --lanes 2 pdregress) 2>"$work/interrupted" &
    while [ ! -e "$NOTES/trees" ]; do sleep 0.1; done
    kill -TERM $!
    code=0
    wait $! || code=$?
    cat "$work/interrupted"
    echo "$code"
}

proved() { # what is kept of the crates, in the first tree, and how many trees there were
    (cd "$build/crates" && LC_ALL=C ls -d */out/*)
    sort -u "$NOTES/trees" | wc -l
}

kept() { # of these crates
    printf '%s\n' "$@" | sed 's,.*,&/out/build.log\n&/out/definitions.json\n&/out/incremental\n&/out/rlib,'
}

refused_words() { # the last line of the message, and the status
    code=0
    prove "$@" 2>"$work/usage" || code=$?
    tail -n 1 "$work/usage"
    return "$code"
}

# The log of a crate that isn't proved: errors, and other lines among them.
log_with_errors() {
    cat <<'LOG'
rt: chose --jobs 2 for right
// goal
./proofs/Lib.antt:6:14: error: in `a`: expected type `b`
  compared part by part, the two types first differ where one has `2` and the other has `3`
./proofs/Lib.antt:5:5: note: where a refusal may wait, antt runs it again
note: src/lib.rt:5:1: it is not proved that what the function ensures holds when it returns (`returns`)
note: to see how far a `search` got, write `search rules`
fn right::f: no proof: expected answers in ./proofs/f/Answers.antt; `search` did not prove `returns`
fn right::g: no proof: it calls `right::f`, which is not proved
help: write ./proofs/f/Answers.antt with these lines
    use Rattle.std.proofs.Common.{rules}
src/lib.rt:9:5: error[mismatched-types]: expected `u32`, found `u64`
statements core: modules loaded=222 checked=0
logic=not-proved
LOG
}

test_lanes() {
    make_crates
    expect one-lane "$(printf '! prove: proving %s crate%s and less than a minute are left\n' 'low; 5' s 'left; 4' s 'right; 3' s 'high; 2' s 'pdregress; 1' ''; printf '! prove: proved and built: pdregress\nstatus 0')" quick prove --lanes 1 pdregress
    anew
    expect two-lanes "$(printf 'prove: %s\n' 'proved and built: pdregress'; printf 'prove: proving %s\n' high left low pdregress right; echo status 0)" begun --lanes 2 pdregress
    expect both-lanes-are-used "$(kept high left low; printf 'pdregress/out/%s\n' build.log definitions.json incremental pdregress pdregress.stamps pdregress.sums rlib; kept right; printf '2\nstatus 0')" proved
    expect nothing-is-left "$(printf '! prove: proved and built: pdregress\nstatus 0')" prove pdregress
    expect all-programs "$(printf 'prove: %s\n' 'proved and built: pdregress, pdrecord'; printf 'prove: proving %s\n' high left low pdrecord right; echo status 0)" begun
    expect no-such-crate "$(printf 'prove: error: there is no crate middle; there are low, left, right, high, pdregress, pdrecord\nstatus 2')" refused_words low middle
    expect no-such-word "$(printf 'prove: error: unrecognized arguments: --quick\nstatus 2')" refused_words --quick
    anew
    expect programs-in-two-lanes "$(printf 'prove: %s\n' 'proved and built: pdregress, pdrecord'; printf 'prove: proving %s\n' high left low pdrecord pdregress right; echo status 0)" begun --lanes 2
    expect programs-in-two-lanes-are-built "$(printf 'pdregress 2\npdrecord 2\nstatus 0')" trees_of $programs
    anew
    expect two-calls "$(printf 'prove: %s\n' 'proved and built: pdregress' 'proved and built: pdregress'; printf 'prove: proving %s\n' high left low pdregress right; echo 'prove: waiting for another call that proves here'; echo status 0)" two_calls
}

# The fake `rt` belongs to a kit whose name is in "$kit/KIT-ID".
test_libraries() {
    anew
    expect a-library "$(printf 'prove: proved: left\n'; printf 'prove: proving %s\n' left low; echo status 0)" begun left
    expect a-library-and-a-program "$(printf 'prove: %s\n' 'proved and built: pdregress' 'proved: left'; printf 'prove: proving %s\n' high left low pdregress right; echo status 0)" begun pdregress left
}

broken_kit() { # NAME COMMAND: a kit of this name, whose command does what the other one says
    rm -rf "$work/broken"
    mkdir -p "$work/broken/bin"
    [ -z "$1" ] || echo "$1" >"$work/broken/KIT-ID"
    printf '#!/bin/sh\n%s\n' "$2" >"$work/broken/bin/rt"
    chmod +x "$work/broken/bin/rt"
    env PATH="$work/broken/bin:$PATH" "$build/prove" pdregress
}

test_kits() {
    quietly pdregress
    broken=$work/broken/bin/rt
    expect kit-that-fails "$(printf '! prove: %s --version ends with status 3\nstatus 2' "$broken")" broken_kit 'a kit' 'exit 3'
    expect another-kit-that-fails "$(printf '! prove: %s --version ends with status 3\nstatus 2' "$broken")" broken_kit 'kit 2' 'exit 3'
    expect kit-that-says-another-name "$(printf "! prove: %s --version prints 'kit 2', and %s has 'a kit'\nstatus 2" "$broken" "$work/broken/KIT-ID")" broken_kit 'a kit' 'echo kit 2'
    expect kit-without-a-name "$(printf "! prove: %s is of no kit: %s doesn't say which\nstatus 2" "$broken" "$work/broken/KIT-ID")" broken_kit '' 'echo a kit'
    expect kit-that-only-says-its-name "$(printf "! prove: proving low; 5 crates and less than a minute are left\n! prove: low isn't proved, or wasn't built:\n! \n! prove: the whole log: %s\nstatus 2" "$build/crates/low/out/build.log")" broken_kit 'kit 2' '[ "$1" = --version ] && echo kit 2'
    expect proved-by-the-first-kit "$(printf 'pdregress\nstatus 0')" with_rt sh -c '"$1" >/dev/null && echo pdregress' sh "$build/pdregress"
    meanwhile "low) echo 'kit 2' >'$kit/KIT-ID' ;;"
    expect kit-that-changes-meanwhile "$(printf '! prove: the kit of %s/bin/rt has changed while it proved: run this again\nstatus 2' "$kit")" without_progress --lanes 1 pdregress
    echo 'a kit' >"$kit/KIT-ID"
}

meanwhile() { # CASE.. of a crate: what is done while that is proved, from nothing
    anew
    printf 'case $crate in %s esac\n' "$*" >"$NOTES/meanwhile"
}

source_of() { # what the program was built of, where it counts as proved
    with_rt "$build/tools/proved_program.sh" pdregress >/dev/null && "$build/crates/pdregress/out/pdregress" source
}

and_then() { # COMMAND what is printed of the source once that was done after a proof
    without_progress --lanes 1 pdregress 2>/dev/null || echo "$?"
    sh -c "$1"
    source_of
}

killed() { # in the midst of the second proof, once high was edited: what counts as proved then, after the edit is taken back, and once all is proved again
    quietly pdregress
    echo 'fn edited() {}' >>"$high"
    printf 'case $crate in high) kill -KILL "$PPID" ;; esac\n' >"$NOTES/meanwhile"
    prove pdregress 2>/dev/null || echo "$?"
    source_of 2>/dev/null || echo unproved
    echo 'fn f() {}' >"$high"
    source_of
    rm "$NOTES/meanwhile"
    echo 'fn again() {}' >"$high"
    quietly pdregress
    source_of
    find "$build" -name 'lane-*' | wc -l
    echo 'fn f() {}' >"$high"
}

quietly() {
    prove "$@" 2>/dev/null
}

test_edits() {
    high=$build/crates/high/src/lib.rt
    changed="prove: crates/high/src/lib.rt has changed since this began, and what was proved is as all was before: run this again"
    meanwhile "low) echo 'fn edited() {}' >>'$high' ;;"
    expect edited-meanwhile "$(printf '! %s\nstatus 2' "$changed")" without_progress --lanes 2 pdregress
    expect edited-meanwhile-is-not-proved "$(printf "! pdregress isn't proved and built, or has changed since: run ./prove pdregress\nstatus 2")" source_of
    echo 'fn f() {}' >"$high"
    expect edited-meanwhile-and-taken-back "$(printf 'fn f() {}\nstatus 0')" source_of
    meanwhile "low) echo 'fn edited() {}' >>'$high' ;; pdregress) echo 'fn f() {}' >'$high' ;;"
    expect taken-back-meanwhile "$(printf '! prove: proved and built: pdregress\nstatus 0')" without_progress --lanes 1 pdregress
    expect taken-back-meanwhile-is-proved-as-it-was "$(printf 'fn f() {}\nstatus 0')" source_of
    meanwhile "low) : >'$build/crates/left/src/more.rt' ;; pdregress) rm '$build/crates/left/src/more.rt' ;;"
    expect a-file-that-comes-and-goes "$(printf '! prove: proved and built: pdregress\nstatus 0')" without_progress --lanes 2 pdregress
    meanwhile "left) echo 'fn edited() {}' >>src/lib.rt ;;"
    expect a-copy-that-changes "$(printf '! prove: FOLDER/0/crates/left/src/lib.rt has changed while it was proved: run this again\nstatus 2')" in_a_lane --lanes 1 pdregress
    expect a-copy-that-changes-is-not-kept "$(printf 'status 2')" sh -c "ls '$build'/crates/left/out/rlib 2>/dev/null"
    anew
    mv "$high" "$work/elsewhere.rt" && ln -s "$work/elsewhere.rt" "$high"
    expect a-link "$(printf '! prove: crates/high/src/lib.rt is a link: put the file or folder itself there\nstatus 2')" prove pdregress
    rm "$high" && mv "$work/elsewhere.rt" "$high"
    anew
    expect killed "$(printf '137\nunproved\nfn f() {}\nfn again() {}\n0\nstatus 0')" killed
    anew
    expect two-calls-beside-another-crates.txt "$(printf 'prove: %s\n' 'proved and built: pdregress' 'proved and built: pdregress'; printf 'prove: proving %s\n' high left low pdregress right; echo 'prove: waiting for another call that proves here'; echo status 0)" two_calls_beside
    anew
    expect both-bases-are-kept "$(printf 'commit\npdrecord\npdregress\nstatus 0')" bases
    expect bases-stay-where-a-library-is-proved "$(printf 'commit\npdrecord\npdregress\nstatus 0')" bases_beside_a_library
    expect bases-stay-where-one-has-changed "$(printf 'commit\npdrecord\npdregress\nstatus 0')" bases_beside_a_change
}

gate() { # what the gate says, and which programs count as proved after it
    code=0
    with_rt "$build/tools/gate.py" || code=$?
    for program in $programs; do with_rt "$build/tools/proved_program.sh" "$program" >/dev/null 2>&1 && echo "$program"; done
    return "$code"
}

test_gate() {
    anew
    expect gate "$(printf '6 passed, 0 failed\npdregress\npdrecord\nstatus 0')" gate
    meanwhile "low) echo '// an edit' >>'$high' ;; high) echo 'fn f() {}' >'$high' ;;"
    expect gate-beside-an-edit-that-is-taken-back "$(printf 'gate: crates/high/src/lib.rt has changed while rt ci ran: no program is taken for proved\n6 passed, 1 failed\nstatus 1')" gate
    meanwhile "high) echo 'kit 2' >'$kit/KIT-ID' ;;"
    expect gate-beside-another-kit "$(printf 'gate: the kit of %s/bin/rt has changed while it proved: run this again\n6 passed, 1 failed\nstatus 1' "$kit")" gate
    echo 'a kit' >"$kit/KIT-ID"
    expect gate-beside-another-kit-keeps-nothing "$(printf "1\n! pdregress isn't proved and built, or has changed since: run ./prove pdregress\nstatus 2")" after_another_kit
}

after_another_kit() { # the status of a gate beside which the kit was another one, and what counts as proved once it is as it was
    meanwhile "high) echo 'kit 2' >'$kit/KIT-ID' ;;"
    gate >/dev/null || echo "$?"
    echo 'a kit' >"$kit/KIT-ID"
    source_of
}

in_a_lane() { # WORD.. the lines, with a name for the folder of the copies
    code=0
    without_progress "$@" 2>"$work/lane" || code=$?
    sed 's,/[^ ]*/lane-[^/]*,FOLDER,' "$work/lane" >&2
    return "$code"
}

two_calls_beside() { # what two say, where crates.txt is another file when the second one begins
    (TAKES=1 prove pdregress 2>&1 | sed 's/;.*//' >"$work/first") &
    while [ ! -e "$NOTES/trees" ]; do sleep 0.1; done
    cp "$build/crates.txt" "$build/crates.new" && mv "$build/crates.new" "$build/crates.txt"
    prove pdregress >"$work/second" 2>&1
    wait
    LC_ALL=C sort "$work/first" "$work/second"
}

bases() { # what is kept for a comparison after one program alone is proved anew
    quietly
    echo '// an edit' >>"$build/crates/pdregress/src/main.rt"
    quietly pdregress
    (cd "$(python3 -B "$build/tools/last_proved.py")" && ls)
    : >"$build/crates/pdregress/src/main.rt"
}

bases_beside_a_library() { # what is kept for a comparison after an edit, once that library is proved
    quietly
    echo '// an edit' >>"$high"
    quietly high
    (cd "$(python3 -B "$build/tools/last_proved.py")" && ls)
    echo 'fn f() {}' >"$high"
}

bases_beside_a_change() { # what is kept for a comparison after an edit of one program, once a library is proved
    quietly
    echo '// an edit' >>"$build/crates/pdrecord/src/main.rt"
    quietly high
    (cd "$(python3 -B "$build/tools/last_proved.py")" && ls)
    : >"$build/crates/pdrecord/src/main.rt"
}

quick() { # COMMAND.. on a machine that took next to no time for each crate
    mkdir -p "$XDG_CACHE_HOME/pdregress"
    printf '{"low": 1, "left": 1, "right": 1, "high": 1, "pdregress": 1}' >"$XDG_CACHE_HOME/pdregress/prove.json"
    "$@"
}

three() { # NUMBER: a definition of low, which a law of right names, and another one through `four`
    mkdir -p "$build/crates/low/specs" "$build/crates/right/specs"
    printf -- '-- A rule.\n\n-- so many\nabbrev pub three : N\nthree = %s\n\nabbrev pub four : N\nfour = suc three\n' "$1" >"$build/crates/low/specs/Rule.antt"
    printf 'use Rattle.low.specs.Rule.{three}\n\nabbrev pub IsOdd : Type 0\nIsOdd = odd three\n' >"$build/crates/right/specs/Laws.antt"
    printf 'use Rattle.low.specs.Rule.{four}\n\nabbrev pub IsEven : Type 0\nIsEven = even four\n' >"$build/crates/right/specs/MoreLaws.antt"
}

# The lines of a log about a function, which are in it too.
log_with_a_contract() {
    cat <<'LOG'
ghost use Rattle.low.specs.Rule.{four}

pub fn f(a: u8) -> u8
    requires { a < four }
    ensures { result ≡ four }
{
note: src/lib.rt:3:1: it is not proved that what the function ensures holds when it returns (`returns-then`)
note: src/lib.rt:5:9: it is not proved that what the function ensures holds when it returns (`returns-else`)
fn right::f: no proof: expected answers in ./proofs/f/Answers.antt; `search` did not prove each goal
src/lib.rt:9:5: error[mismatched-types]: expected `u32`, found `u64`
LOG
}

contract_lines() { # FOLDER of the definitions
    printf '! %s\n' "prove: right isn't proved, or wasn't built:" \
        'crates/right/src/lib.rt:3:1: it is not proved that what the function ensures holds when it returns (`returns-then`)' \
        'crates/right/src/lib.rt:5:9: it is not proved that what the function ensures holds when it returns (`returns-else`)' \
        'fn right::f: no proof: expected answers in ./proofs/f/Answers.antt; `search` did not prove each goal' \
        '  the contract of f:' '    requires { a < four }' '    ensures { result ≡ four }' \
        '  cites' "    four ($1/specs/Rule.antt:7)" "    three ($1/specs/Rule.antt:4)" \
        'crates/right/src/lib.rt:9:5: error[mismatched-types]: expected `u32`, found `u64`' \
        "prove: the whole log: $build/crates/right/out/build.log"
}

changed_since() { # the lines where a proof is refused after a definition by which all was proved has changed
    three 3
    quietly pdregress
    three 2
    echo 'a goal' >"$build/crates/right/src/lib.rt"
    without_progress --lanes 1 pdregress
}

watched() { # what is left of a refusal for who watches
    quietly pdregress || cat "$build/crates/pdregress/out/refused"
}

refused_is_gone() { # what is left of a refusal once all is proved
    echo 'a goal' >"$build/crates/right/src/lib.rt"
    quietly pdregress || ls "$build/crates/pdregress/out/refused" >/dev/null
    echo 'fn f() {}' >"$build/crates/right/src/lib.rt"
    quietly pdregress
    [ -e "$build/crates/pdregress/out/refused" ] || echo proved
}

test_changes() {
    anew
    three 3
    expect proved-by-a-definition "$(printf '! prove: proved and built: pdregress\nstatus 0')" in_folder "$build" without_progress --lanes 1 pdregress
    expect what-changed-since "$(printf '! %s\n' "prove: right isn't proved, or wasn't built:" 'a goal' \
        "crates/low/specs/Rule.antt:4: \`three\` isn't as it was when this was proved last" \
        '  laws that name it: IsOdd (crates/right/specs/Laws.antt:3), IsEven (crates/right/specs/MoreLaws.antt:3)' \
        "prove: the whole log: $build/crates/right/out/build.log"; echo status 2)" changed_since
    log_with_a_contract >"$build/crates/right/src/lib.rt"
    three 3
    expect what-a-refused-contract-cites "$(contract_lines crates/low; echo status 2)" without_progress --lanes 1 pdregress
    expect what-watch-reads "$(contract_lines "$build/crates/low" | sed "s,^! crates,$build/crates,; s/^! //"; echo status 0)" watched
    echo 'fn f() {}' >"$build/crates/right/src/lib.rt"
    expect what-watch-reads-goes "$(printf 'proved\nstatus 0')" refused_is_gone
    rm -r "$build/crates/low/specs" "$build/crates/right/specs"
}

test_stops() {
    anew
    log_with_errors >"$build/crates/right/src/lib.rt"
    log=$build/crates/right/out/build.log
    expect not-proved "$(printf '! prove: %s\n' "right isn't proved, or wasn't built:"
        echo '! crates/right/proofs/Lib.antt:6:14: error: in `a`: expected type `b`'
        echo '!   compared part by part, the two types first differ where one has `2` and the other has `3`'
        echo '! crates/right/src/lib.rt:5:1: it is not proved that what the function ensures holds when it returns (`returns`)'
        echo '! fn right::f: no proof: expected answers in ./proofs/f/Answers.antt; `search` did not prove `returns`'
        echo '! crates/right/src/lib.rt:9:5: error[mismatched-types]: expected `u32`, found `u64`'
        printf '! prove: the whole log: %s\nstatus 2' "$log")" without_progress --lanes 1 pdregress
    echo 'a goal' >"$build/crates/right/src/lib.rt"
    expect not-proved-without-a-place "$(printf '! %s\n' "prove: right isn't proved, or wasn't built:" 'a goal' "prove: the whole log: $log"; echo status 2)" without_progress --lanes 1 pdregress
    echo 'fn f() {}' >"$build/crates/right/src/lib.rt"
    echo 'another goal' >"$build/crates/pdrecord/src/lib.rt"
    expect not-a-program "$(printf '! %s\n' "prove: pdrecord isn't proved, or wasn't built:" 'another goal' "prove: the whole log: $build/crates/pdrecord/out/build.log"; echo status 2)" without_progress --lanes 2
    echo 'fn f() {}' >"$build/crates/pdrecord/src/lib.rt"
    anew
    expect interrupted "$(printf 'prove: proving low; 5 crates and about a minute are left\nprove: interrupted at low; what was proved is kept: run it again to go on\n2\nstatus 0')" interrupted
    anew
    expect hung-up-under-nohup "$(printf '0\nstatus 0')" hung_up
    anew
    : >"$build/crates/low/out"
    expect no-folder "$(printf '! prove: proving low; 5 crates and about a minute are left\n! prove: can'"'"'t go on: [Errno 17] File exists: '"'%s'"'\nstatus 2' "$build/crates/low/out")" prove --lanes 1 pdregress
    expect no-lane-is-left "$(printf '0\nstatus 0')" sh -c "ls -d '$build'/crates/pdregress/out/lane-* 2>/dev/null | wc -l"
    rm "$build/crates/low/out"
}

without_progress() { # WORD..
    code=0
    (cd "$build" && prove "$@" 2>"$work/progress") || code=$?
    grep -v ' proving ' "$work/progress" >&2
    return "$code"
}

kept_times() { # of what, once all was proved that way: those that are as long, or longer on a busy machine
    TAKES=0.3 prove --lanes 2 pdregress 2>/dev/null
    sed -n "s/^\"\([a-z]*${1:-}\)\": \(0\.[3-9]\|[1-9]\.[0-9]\),*$/\1/p" "$XDG_CACHE_HOME/pdregress/prove.json" | LC_ALL=C sort
}

in_an_hour() { # the last line where each crate took an hour last
    for crate in low left right high pdregress; do printf '"%s": 3600, ' "$crate" "$crate again"; done |
        sed 's/^/{/; s/, $/}/' >"$XDG_CACHE_HOME/pdregress/prove.json"
    prove "$@" 2>&1 | grep proving
}

no_cache() { # the same where no times can be kept
    XDG_CACHE_HOME=/dev/null prove "$@" 2>&1 | tail -n 1
}

test_times() {
    anew
    expect times-are-kept "$(printf '%s\n' high left low pdregress right; echo status 0)" kept_times
    echo '-- an edit' >>"$build/crates/right/proofs/Lib.antt"
    expect times-over-what-is-kept "$(printf '%s again\n' high left low pdregress right; echo status 0)" kept_times ' again'
    echo '// an edit' >>"$build/crates/high/src/lib.rt"
    expect times-are-printed "$(printf 'prove: proving %s\n' 'low; 5 crates and about 120 minutes are left' 'left; 4 crates and about 120 minutes are left' 'right; 3 crates and about 120 minutes are left' 'high; 2 crates and about 120 minutes are left' 'pdregress; 1 crate and about 60 minutes are left'; echo status 0)" in_an_hour --lanes 1 pdregress
    anew
    expect no-times-can-be-kept "$(printf 'prove: proved and built: pdregress\nstatus 0')" no_cache pdregress
}

test_words() {
    expect words-of-times-and-errors "status 0" in_folder "$top/tools" python3 -B -m doctest changed_rules.py cited.py crate_graph.py mutant_contracts.py affected.py affected_sections.py proofs.py prove_errors.py source_sums.py copies.py
}

test_lanes
test_libraries
test_kits
test_edits
test_gate
test_changes
test_stops
test_words
test_times
