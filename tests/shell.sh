#!/bin/sh
# Tests of the shell programs, of ./prove and of what counts tests, and of the built programs where something is refused to
# them: those of the files in shell/, or of those that are named. The files run side by side, but what they print comes in
# their order: a line for each test, and `N passed, M failed` last.
#
#   tests/shell.sh [NAME..]
#   tests/shell.sh --unproved     those that need no built program; the others are named
set -eu
top=$(cd "$(dirname "$0")/.." && pwd)
work=$(mktemp -d)
trap 'rm -rf "$work"' EXIT
passed=0
failed=0

run_side_by_side() { # NAME..: what each file prints, and counts, as if they ran one after another
    for name in "$@"; do
        "$top/tests/shell.sh" "$name" >"$work/$name" 2>&1 &
    done
    wait
    for name in "$@"; do
        counts=$(tail -n 1 "$work/$name" | sed -En 's/^([0-9]+) passed, ([0-9]+) failed$/\1 \2/p')
        if [ -n "$counts" ]; then
            sed '$d' "$work/$name"
            passed=$((passed + ${counts% *})) failed=$((failed + ${counts#* }))
        else
            cat "$work/$name"
            echo "FAILED shell $name: it came to no end"
            failed=$((failed + 1))
        fi
    done
}

case ${1:-} in
    '') set -- adding harness links launching memory proving faults ;;
    --unproved)
        set -- adding harness links launching layout memory proving
        echo 'not tested, needs a built program: tests/shell/faults.sh'
        ;;
esac
if [ $# -gt 1 ]; then
    run_side_by_side "$@"
else
    . "$top/tests/shell/common.sh"
    . "$top/tests/shell/$1.sh"
fi
echo "$passed passed, $failed failed"
[ "$failed" -eq 0 ]
