# Tests of what counts tests, by the last lines and the status: ./check with fake steps, tests/run on rows of a small tree, with
# pytest and without it, and tests/client.sh with a fake of pytest.
small=$work/small

make_small_tree() {
    mkdir -p "$small/tests/shell" "$small/tools" "$small/client" "$small/tests/cases/empty" "$small/one" "$small/all"
    cp -R "$top/tests/run" "$top/tests/conftest.py" "$top/tests/pytest.ini" "$top/tests/harness" "$top/tests/model" "$top/tests/drawn" "$top/tests/client.sh" "$small/tests"
    copy_proof_tools "$small"
    printf '[a] opening\n< 0\n' >"$small/tests/cases/openings.cases"
    printf '#!/bin/sh\necho a1 pass 1\necho total 1 pass 1 fail 0 syntax 0 unsupported 0 limit 0 pending 0\n' >"$small/one/pdregress"
    chmod +x "$small/one/pdregress"
    for program in pdregress pdrecord test_desk test_book test_sender; do cp "$small/one/pdregress" "$small/all/$program"; done
    rows passes '[a] scripts\npass 1: 0'
    rows runs '[a] scripts\npass 1: 0'
    rows fails '[a] scripts\npass 2: 0\npass 1: 1'
    rows no_table 'a row'
    rows no_text '[a] scripts\npass 1: \377'
    rows unanswered '[a] refusals\nno | $ {}'
    rows unanswered_and_marked '[a] refusals\n#? taken\nno | $ {}'
    echo 'import nothing_of_this_name' >"$small/tests/cases/test_no_import.py"
    printf 'import os\n\n\ndef test_a():\n    assert "PYTEST_XDIST_WORKER" not in os.environ\n' >"$small/tests/cases/test_no_process.py"
    printf 'import pytest\n\n\ndef test_passes():\n    pass\n\n\ndef test_exits():\n    pytest.exit("a")\n' >"$small/tests/cases/test_exits.py"
}

rows() { # NAME TEXT: a file of rows
    # shellcheck disable=SC2059
    printf "$2\n" >"$small/tests/cases/$1.cases"
}

counted() { # COUNT COMMAND..: the last lines that it writes, without times
    count=$1 code=0
    shift
    "$@" >"$work/counted" 2>&1 </dev/null || code=$?
    tail -n "$count" "$work/counted"
    return "$code"
}

run_rows() { # ARGUMENT..: what counts rows of the small tree
    (cd "$small/tests/cases" && counted 1 ../run "$@")
}

run_alone() { # ARGUMENT..: the same by pytest without xdist
    (cd "$small/tests/cases" && counted 1 /usr/bin/python3 -I -B -m pytest -c ../pytest.ini -q -p no:xdist "$@")
}

run_plainly() { # ARGUMENT..: the same where pytest is missing
    (cd "$small/tests/cases" && counted 1 ../harness/without_pytest.py "$@")
}

test_rows() {
    expect harness-a-row-fails "$(printf '1 passed, 1 failed\nstatus 1')" run_rows fails.cases --programs ../../one
    expect harness-no-row-is-chosen "$(printf '0 passed, 1 failed\nstatus 5')" run_rows passes.cases --programs ../../one -k none
    expect harness-no-row-is-chosen-in-processes "$(printf '0 passed, 1 failed\nstatus 5')" run_rows passes.cases --programs ../../all -k none
    expect harness-the-word-of-an-option-is-no-path "$(printf '1 passed, 0 failed\nstatus 0')" run_rows runs.cases passes.cases --programs ../../one -k runs
    expect harness-without-xdist "$(printf '1 passed, 1 failed\nstatus 1')" run_alone fails.cases --programs ../../one
    expect harness-the-number-of-processes-that-is-named "$(printf '1 passed, 0 failed\nstatus 0')" run_rows test_no_process.py --programs ../../all -n 0
    expect harness-no-file-is-there "$(printf '0 passed, 1 failed\nstatus 4')" run_rows none.cases --programs ../../one
    expect harness-unread "$(printf '1 passed, 2 failed\nstatus 1')" run_rows passes.cases no_table.cases no_text.cases --programs ../../one --continue-on-collection-errors
    expect harness-an-error-is-counted "$(printf '0 passed, 1 failed\nstatus 2')" run_rows passes.cases test_no_import.py --programs ../../one
    expect harness-a-run-that-is-left "$(printf '1 passed, 1 failed\nstatus 2')" run_rows test_exits.py
    expect harness-unanswered "$(printf '0 passed, 0 failed\nstatus 0')" run_rows unanswered.cases --unproved
    expect harness-unanswered-and-marked "$(printf '0 passed, 1 failed\nstatus 1')" run_rows unanswered_and_marked.cases --unproved
    expect harness-nothing-is-proved "$(printf '0 passed, 5 failed\nstatus 1')" run_rows unanswered.cases --proved
}

test_rows_plainly() {
    expect plain-a-row-passes "$(printf '1 passed, 0 failed\nstatus 0')" run_plainly passes.cases --programs ../../one
    expect plain-a-row-fails "$(printf '1 passed, 1 failed\nstatus 1')" run_plainly fails.cases --programs ../../one
    expect plain-no-row-is-there "$(printf '0 passed, 1 failed\nstatus 1')" run_plainly empty --programs ../../one
    expect plain-a-test-of-pytest "$(printf '1 passed, 1 failed\nstatus 1')" run_plainly passes.cases test_exits.py --programs ../../one
    expect plain-unanswered-and-marked "$(printf '0 passed, 1 failed\nstatus 1')" run_plainly unanswered_and_marked.cases --unproved
    expect plain-nothing-is-proved "$(printf '0 passed, 5 failed\nstatus 1')" run_plainly unanswered.cases --proved
}

step() { # PATH TEXT: a step of the small tree, a shell program
    printf '#!/bin/sh\n%s\n' "$2" >"$small/$1"
    chmod +x "$small/$1"
}

copy_check() { # puts ./check into the small tree, without its steps
    mkdir -p "$small/checked/tests" "$small/checked/tools"
    cp "$top/check" "$small/checked"
}

check_small() { # TEXT COUNT: the last lines of ./check, of which one step is this
    copy_check
    step checked/tests/run "$1"
    counted "$2" "$small/checked/check" runs
}

check_steps() { # COUNT STEP..: the last lines of ./check, whose steps each pass so many tests
    copy_check
    printf '%s\n' 1:tests/run 10:tests/shell.sh 100:tests/client.sh 1000:tests/documents.py 10000:tools/gate.py 100000:tools/fail_alloc.sh |
        while IFS=: read -r number file; do step "checked/$file" "echo $number passed, 0 failed"; done
    step checked/tests/packages.sh 'exit 1'
    count=$1
    shift
    counted "$count" "$small/checked/check" "$@"
}

handed_on() { # ARGUMENT..: the arguments that ./check gives its steps
    copy_check
    for file in tests/run tests/shell.sh tests/client.sh tests/documents.py tests/packages.sh tools/gate.py tools/fail_alloc.sh; do
        step "checked/$file" "echo ${file##*/} \$* >>'$work/handed'; echo 1 passed, 0 failed"
    done
    rm -f "$work/handed"
    "$small/checked/check" "$@" >/dev/null
    cat "$work/handed"
}

steps_begun() { # ARGUMENT..: how many steps ./check begins
    handed_on "$@" 2>/dev/null | wc -l
}

stepped() { # WHY PASSED FAILED: the last lines where a step is at fault
    printf 'check: tests/run runs %s\n%s passed, %s failed\nstatus 1' "$@"
}

test_check() {
    expect check-a-step-passes "$(printf '3 passed, 0 failed\nstatus 0')" check_small 'echo 3 passed, 0 failed' 1
    expect check-a-step-fails "$(printf '3 passed, 2 failed\n3 passed, 2 failed\nstatus 1')" check_small 'echo 3 passed, 2 failed; exit 1' 2
    expect check-no-count "$(stepped 'came to no end' 0 1)" check_small 'echo 3 passed, 0 failed; echo more' 2
    expect check-nothing-written "$(stepped 'came to no end' 0 1)" check_small : 2
    expect check-a-count-without-numbers "$(stepped 'came to no end' 0 1)" check_small 'echo " passed,  failed"' 2
    expect check-a-count-of-octal-digits "$(stepped 'came to no end' 0 1)" check_small 'echo 010 passed, 0 failed' 2
    expect check-a-count-with-more "$(stepped 'came to no end' 0 1)" check_small 'echo 3 passed, 0 failed, 1 error' 2
    expect check-a-step-that-counts-nothing "$(stepped 'tried nothing' 0 1)" check_small 'echo 0 passed, 0 failed' 2
    expect check-a-signal "$(stepped 'ended with status 141, whatever it counts' 3 1)" check_small 'echo 3 passed, 0 failed; kill -PIPE $$' 2
    expect check-a-signal-before-a-count "$(stepped 'came to no end' 0 1)" check_small 'echo row; kill -KILL $$' 2
    expect check-a-status-without-a-failure "$(stepped 'ended with status 1, whatever it counts' 3 1)" check_small 'echo 3 passed, 0 failed; exit 1' 2
    expect check-failures-without-a-status "$(stepped 'ended with status 0, whatever it counts' 3 3)" check_small 'echo 3 passed, 2 failed' 2
    expect check-no-step "$(stepped 'came to no end' 0 1)" check_small 'exec /none' 2
    expect check-steps-are-added "$(printf '1101 passed, 0 failed\nstatus 0')" check_steps 1 runs client documents
    expect check-tests-runs-each-step "$(printf '1112 passed, 0 failed\nstatus 0')" check_steps 1 tests
    expect check-runs-each-step "$(printf '111112 passed, 0 failed\nstatus 0')" check_steps 1
    expect check-hands-on-its-options "$(printf '%s\n' gate.py packages.sh 'run --proved' shell.sh 'run tests/test_[!k]*.py' client.sh \
        'fail_alloc.sh --part' documents.py; echo status 0)" handed_on
    expect check-tests-hands-on-its-options "$(printf '%s\n' 'packages.sh --no-install' 'run --unproved' 'shell.sh --unproved' \
        'run tests/test_[!k]*.py' 'client.sh --unproved --no-install' 'documents.py --pages'; echo status 0)" handed_on tests --no-install
    expect check-a-step-is-none "$(printf 'status 2')" check_steps 0 runs none
    expect check-looks-at-all-steps-first "$(printf '0\nstatus 0')" steps_begun runs none
    expect check-no-word "$(printf '0 passed, 1 failed\nstatus 1')" check_steps 1 ''
}

client_small() { # TEXT: the last lines of tests/client.sh, where pytest is this and all other tools pass
    step tests/packages.sh :
    step python "echo \$* >>'$work/tools'; case \$* in *pytest*) $1 ;; esac"
    step ls :
    sed -i "s,^python=.*,python=$small/python," "$small/tests/client.sh"
    (PATH="$small:$PATH" counted 1 "$small/tests/client.sh")
}

looked_at() { # the arguments of the tools that tests/client.sh calls before pytest, but for those of tools/
    rm -f "$work/tools"
    client_small 'echo "1 passed in 1s"' >/dev/null
    sed -n '/pytest/!s/^-I -m //p' "$work/tools"
}

test_client() {
    expect client-what-is-looked-at "$(printf '%s\n' 'black -q --check --config pyproject.toml . ../pdsuite' 'flake8 . ../pdsuite' \
        'mypy --config-file pyproject.toml pdsuite tests ../pdsuite' 'mypy --config-file pyproject.toml'; echo status 0)" looked_at
    expect client-tests-pass "$(printf '7 passed, 0 failed\nstatus 0')" client_small 'echo "3 passed, 1 warning in 1s"'
    expect client-tests-fail "$(printf '7 passed, 2 failed\nstatus 1')" client_small 'echo "1 failed, 3 passed, 1 error in 1s"; exit 1'
    expect client-tests-are-left "$(printf '7 passed, 1 failed\nstatus 1')" client_small 'echo "3 passed in 1s"; exit 2'
    expect client-tests-come-to-no-end "$(printf '4 passed, 1 failed\nstatus 1')" client_small 'echo ...'
    expect client-no-test-is-there "$(printf '4 passed, 1 failed\nstatus 1')" client_small 'echo "no tests ran in 1s"; exit 5'
    expect client-tests-are-skipped "$(printf '4 passed, 1 failed\nstatus 1')" client_small 'echo "9 skipped in 1s"'
}

shell_small() { # TEXT: the last lines of tests/shell.sh, of which one file is this
    cp "$top/tests/shell.sh" "$small/tests"
    cp "$top/tests/shell/common.sh" "$small/tests/shell"
    echo "$1" >"$small/tests/shell/own.sh"
    counted 2 env -u SHELL_TEST "$small/tests/shell.sh" own
}

shell_files() { # TEXT TEXT: the last lines of tests/shell.sh, of which two files are these
    echo "$2" >"$small/tests/shell/other.sh"
    cp "$top/tests/shell.sh" "$small/tests"
    cp "$top/tests/shell/common.sh" "$small/tests/shell"
    echo "$1" >"$small/tests/shell/own.sh"
    counted 3 env -u SHELL_TEST "$small/tests/shell.sh" own other
}

test_shell() {
    expect shell-pass "$(printf 'ok shell b\n2 passed, 0 failed\nstatus 0')" shell_small "expect a 'status 0' true; expect b 'status 3' sh -c 'exit 3'"
    expect shell-another-status "$(printf '> status 1\n0 passed, 1 failed\nstatus 1')" shell_small "expect a 'status 0' false"
    expect shell-another-line "$(printf 'ok shell b\n1 passed, 1 failed\nstatus 1')" shell_small "expect a 'status 0' echo c; expect b 'status 0' true"
    expect shell-a-line-of-errors "$(printf 'ok shell b\n1 passed, 1 failed\nstatus 1')" shell_small "expect a 'status 0' sh -c 'echo c >&2'; expect b 'status 0' true"
    expect shell-no-such-file "$(printf 'status 2')" no_such_file
    expect shell-files-in-their-order "$(printf 'ok shell a\nok shell b\n2 passed, 0 failed\nstatus 0')" \
        shell_files "sleep 0.2; expect a 'status 0' true" "expect b 'status 0' true"
    expect shell-files-fail "$(printf '> status 1\nok shell b\n1 passed, 1 failed\nstatus 1')" \
        shell_files "expect a 'status 0' false" "expect b 'status 0' true"
    expect shell-a-file-comes-to-no-end "$(printf 'ok shell b\nFAILED shell other: it came to no end\n1 passed, 1 failed\nstatus 1')" \
        shell_files "expect a 'status 0' true" "expect b 'status 0' true; exit 0"
}

no_such_file() {
    rm -f "$small/tests/shell/none.sh"
    "$small/tests/shell.sh" none 2>/dev/null
}

make_small_tree
test_rows
test_rows_plainly
test_check
test_client
test_shell
