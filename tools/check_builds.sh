#!/bin/sh
# Checks builds without proofs, plain and optimised, by what is promised of them: each passes all rows of tests/cases but those
# of test_desk, and where an overflow, a bad index or a failed unwrap is put into its code, it stops with a fault that
# has the place, and with no verdict. Prints a line for each, and `N passed, M failed` last. It takes four builds, of some
# minutes each where none is kept.
#
#   tools/check_builds.sh           all
#   tools/check_builds.sh rows      the rows
#   tools/check_builds.sh faults    the faults
set -eu
top=$(CDPATH='' cd -P -- "$(dirname -- "$0")/.." && pwd -P)
work=$(mktemp -d)
trap 'rm -rf "$work"' EXIT
passed=0
failed=0

count() { # WHAT COMMAND..
    what=$1
    shift
    if "$@" >"$work/log" 2>&1; then
        echo "ok build $what"
        passed=$((passed + 1))
    else
        echo "FAILED build $what:"
        cat "$work/log"
        failed=$((failed + 1))
    fi
}

built() { # TREE WAY: the folder of both programs
    python3 -B "$top/tools/build_unproved.py" --tree "$1" --way "$2" | sed -n 's/^built //p'
}

rows() {
    for way in plain optimised; do
        count "$way: all rows" "$top/tests/run" cases runs recordings --programs "$(built "$top" "$way")"
    done
}

# The sources, in which a line that begins with o, b or u stops whoever keeps it.
with_faults() {
    mkdir -p "$work/tree"
    cp -R "$top/crates.txt" "$top/HANDLES" "$work/tree"
    (cd "$top" && find crates -path '*/src/*' -name '*.rt') | while read -r file; do
        mkdir -p "$work/tree/${file%/*}"
        cp "$top/$file" "$work/tree/$file"
    done
    list=$work/tree/crates/pd_text/src/line_list.rt
    sed -i '/pub fn push(&mut self, line: &\[u8\])/,/^    {/s/^    {/    { planted(line);/' "$list"
    cat >>"$list" <<'END'

fn planted(line: &[u8]) -> u8 {
    match line.first() {
        Some(&b'o') => overflows(line),
        Some(&b'b') => out_of_bounds(line, 90),
        Some(&b'u') => unwraps(line),
        _ => 0,
    }
}

fn overflows(line: &[u8]) -> u8 {
    line.len() as u8 + 250
}

fn out_of_bounds(line: &[u8], at: usize) -> u8 {
    line[at]
}

fn unwraps(line: &[u8]) -> u8 {
    *line.get(90).unwrap()
}
END
}

stops() { # PROGRAM LINE WANTED: whether it stops so on a script with this line, and says no verdict
    printf 'add a 1\n%s\n' "$2" | "$1" >"$work/output" 2>"$work/errors" && return 1
    cat "$work/output" "$work/errors"
    [ ! -s "$work/output" ] && grep -q "^pdregress: unproved: Faulted: kind=$3: " "$work/errors"
}

line_of() { # TEXT in the file with the faults
    grep -n -F "$1" "$list" | cut -d: -f1
}

faults() {
    with_faults
    file=crates/pd_text/src/line_list.rt
    program=$(built "$work/tree" plain)/pdregress
    in=in=pd_text::line_list:
    count 'plain: an overflow' stops "$program" over-the-top "overflow $in:overflows at=$file:$(line_of 'as u8 + 250')"
    count 'plain: a bad index' stops "$program" b "out-of-bounds $in:out_of_bounds at=$file:$(line_of 'line[at]')"
    count 'plain: a failed unwrap' stops "$program" u "panic $in:unwraps at=$file:$(line_of 'get(90).unwrap')"
    program=$(built "$work/tree" optimised)/pdregress
    for line in over-the-top b u; do
        count "optimised: a fault at $line" stops "$program" "$line" 'check in=[^:]*::.*'
    done
}

case ${1:-} in
    '') rows && faults ;;
    rows | faults) "$1" ;;
    *) sed -n '/^set /q; 2,$p' "$0" >&2 && exit 2 ;;
esac
echo "$passed passed, $failed failed"
[ "$failed" -eq 0 ]
