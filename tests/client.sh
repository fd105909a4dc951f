#!/bin/sh
# Tests of the client, by the Python of the system: that its Debian packages are there, its layout (black), its names and
# style (flake8), its types (mypy), those of ./prove and of what tests the programs too, and what it does (pytest). Where a
# package is missing, tests/packages.sh says which, and installs it if it can. Prints a line for each but the tests of pytest,
# and `N passed, M failed` last.
#
#   tests/client.sh [--unproved] [--no-install]
#
# With --unproved the tests that need a built program are left out, counted and named.
set -eu
top=$(CDPATH='' cd -P -- "$(dirname -- "$0")/.." && pwd -P)
python=/usr/bin/python3
work=$(mktemp -d)
trap 'rm -rf "$work"' EXIT
passed=0
failed=0

finish() {
    echo "$passed passed, $failed failed"
    [ "$failed" -eq 0 ]
    exit
}

# A tool of the client's, in its folder, where its settings are.
check() { # NAME COMMAND..
    name=$1
    shift
    if (cd "$top/client" && "$python" -I -m "$@") >"$work/said" 2>&1; then
        echo "ok client $name"
        passed=$((passed + 1))
    else
        echo "FAILED client $name:"
        cat "$work/said"
        failed=$((failed + 1))
    fi
}

count_of() { # a word of the last line of pytest
    tail -n 1 "$work/tests" | sed -n "s/\(.* \)\{0,1\}\([0-9][0-9]*\) $1.*/\2/p"
}

tests() { # [--unproved]: each processor takes a file at a time, at most four of them, since some files start a browser
    {
        (cd "$top/client" && "$python" -I -m pytest -q -n auto --maxprocesses 4 --dist loadfile --tb=short --color=no \
            --durations=3 "$@" tests 2>&1) &&
            echo 0 >"$work/status" || echo "$?" >"$work/status"
    } | tee "$work/tests"
    read -r status <"$work/status"
    good=$(count_of passed)
    bad=$(count_of failed)
    errors=$(count_of error)
    bad=$((${bad:-0} + ${errors:-0}))
    case $status:$good:$bad in
        *::0) echo 'the tests came to no end' && bad=1 ;;
        0:*:0 | [1-9]*:*:[1-9]*) ;;
        *) echo "the tests ended with status $status, whatever they count" && bad=$((bad + 1)) ;;
    esac
    passed=$((passed + ${good:-0}))
    failed=$((failed + bad))
}

unproved=
[ "${1:-}" != --unproved ] || { unproved=$1; shift; }
tools=$(cd "$top/client" && ls -d ../tests/conftest.py ../tests/documents ../tests/drawn ../tests/harness ../tests/model ../tests/store_rows.py ../tools/*prove*.py ../tools/affected*.py ../tools/build_cache.py ../tools/build_mutants.py \
    ../tools/building.py ../tools/changed_rules.py ../tools/check_tutorial.py ../tools/cited.py ../tools/copies.py ../tools/crate_graph.py ../tools/fault_places.py ../tools/gate.py ../tools/kernel ../tools/kit*.py ../tools/mutant*.py \
    ../tools/names.py ../tools/parallel.py ../tools/proof*.py ../tools/reached_rules.py ../tools/repeated_rules.py ../tools/report_fault.py ../tools/rt_try.py ../tools/rule_sources.py ../tools/rules_table.py ../tools/run_batch.py ../tools/run_cases.py \
    ../tools/settings_table.py ../tools/signals.py ../tools/source_sums.py ../tools/stamps.py \
    ../tests/test_*.py)
if ! "$top/tests/packages.sh" "$@"; then
    failed=1
    finish
fi
# shellcheck disable=SC2086
check layout black -q --check --config pyproject.toml . ../pdsuite $tools
# shellcheck disable=SC2086
check style flake8 . ../pdsuite $tools
check types mypy --config-file pyproject.toml pdsuite tests ../pdsuite
export MYPYPATH=../tools:../tests:../bench
# shellcheck disable=SC2086
check types-of-tools mypy --config-file pyproject.toml $tools
unset MYPYPATH
tests $unproved
finish
