"""Tests of tools/mutants.py: which texts are mutants, and that each mutant of the tree can be applied."""

import os
import subprocess
import sys
from collections.abc import Sequence
from pathlib import Path

import pytest

TOP = Path(__file__).resolve().parents[1]
sys.path.insert(0, str(TOP / "tools"))

from mutant_files import (  # noqa: E402
    TextChange,
    Mutant,
    MutantError,
    apply_mutant,
    files_and_texts_changed_by_mutant,
    read_crate_mutants,
    read_mutants_file,
    read_python_mutants,
    parse_mutants_of_text,
)
import mutants as mutants_tool  # noqa: E402
from mutant_python import FileMutant, NamedTest, TreeCopies, mutant_applied, parse_test_kind_and_place  # noqa: E402
from mutant_python import refuse_failing_tests, test_folder_and_command as command_of  # noqa: E402
from mutant_tests import RunLimits  # noqa: E402

SECOND = "file: src/a.rt\nold:   two  blanks\nnew: \nfile: src/b.rt\nold: b: c\nnew: d\n"
TWO = f"# first\nfile: src/a.rt\nold: x\nnew: y\n\n# second\n{SECOND}"
WITH_TEST = "# late\nfails: story a title\nfile: src/a.rt\nold: f(a); g(b);\nnew: g(b);\n"


def test_two_mutants() -> None:
    """Octets stay as they are: those that a line begins with, and a blank at its end."""
    first, second = parse_mutants_of_text(TWO)
    assert (first.name, first.changes) == ("first", [TextChange("src/a.rt", "x", "y")])
    assert second.changes == [TextChange("src/a.rt", "  two  blanks", ""), TextChange("src/b.rt", "b: c", "d")]
    assert second.kit_edit_file_text == SECOND
    assert not first.test


def test_a_mutant_with_a_test() -> None:
    (mutant,) = parse_mutants_of_text(WITH_TEST, need_tests=True)
    assert (mutant.name, mutant.test) == ("late", "story a title")
    assert mutant.changes == [TextChange("src/a.rt", "f(a); g(b);", "g(b);")]


def test_no_mutants() -> None:
    assert parse_mutants_of_text("") == []


PAIR = "file: src/a.rt\nold: x\nnew: y\n"


@pytest.mark.parametrize(
    "text, why",
    [
        (PAIR, "1: a line of no mutant: a title has to stand before it"),
        (f"# a\n{PAIR}\n{PAIR}", "6: a line of no mutant: a title has to stand before it"),
        (f"# a b\n{PAIR}", "1: 'a b' is no name: letters, digits, '_', '-' and '.'"),
        (f"# a/b\n{PAIR}", "1: 'a/b' is no name: letters, digits, '_', '-' and '.'"),
        (f"# a\n{PAIR}\n# a\n{PAIR}", "6: two mutants have the name a"),
        (f"# a\n{PAIR}# b\n{PAIR}# a\n{PAIR}", "9: two mutants have the name a"),
        ("# a\n\n# b\n" + PAIR, "2: a ends without a pair of 'old:' and 'new:'"),
        ("# a\nfile: src/a.rt\nold: x\n", "4: a ends without a pair of 'old:' and 'new:'"),
        ("# a\nold: x\nnew: y\n", "2: a line 'old:' can't stand there"),
        ("# a\nfile: src/a.rt\nnew: y\n", "3: a line 'new:' can't stand there"),
        ("# a\nfile: src/a.rt\nold: x\nold: y\n", "4: a line 'old:' can't stand there"),
        (
            "# a\nfile: src/a.rt\nold: x\nfile: src/b.rt\n",
            "4: 'file: src/b.rt' has to name a file below src/, specs/ or proofs/, before 'old:'",
        ),
        ("# a\nfile: ../a.rt\n", "2: 'file: ../a.rt' has to name a file below src/, specs/ or proofs/, before 'old:'"),
        (
            "# a\nfile: src/../../a.rt\n",
            "2: 'file: src/../../a.rt' has to name a file below src/, specs/ or proofs/, before 'old:'",
        ),
        (f"# a\nwhy: x\n{PAIR}", "2: a line 'why:' can't stand there"),
        (f"# a\nfails: run x\n{PAIR}", "2: a line 'fails:' can't stand there"),
        (f"# a\n{PAIR} \n", "5: a line ' :' can't stand there"),
    ],
)
def test_what_is_no_mutant(text: str, why: str) -> None:
    with pytest.raises(MutantError) as error:
        parse_mutants_of_text(text)
    assert str(error.value) == why


@pytest.mark.parametrize(
    "text, why",
    [
        (f"# a\n{PAIR}", "5: a names no test: it needs a line 'fails:'"),
        (f"# a\nfails: run x\nfails: run y\n{PAIR}", "3: a line 'fails:' can't stand there"),
    ],
)
def test_what_is_no_mutant_with_a_test(text: str, why: str) -> None:
    with pytest.raises(MutantError) as error:
        parse_mutants_of_text(text, need_tests=True)
    assert str(error.value) == why


def test_a_fault_names_its_file(tmp_path: Path) -> None:
    file = tmp_path / "contracts.mutants"
    file.write_text("x")
    with pytest.raises(MutantError) as error:
        read_mutants_file(file)
    assert str(error.value) == f"{file}:1: a line of no mutant: a title has to stand before it"


def make_crate(folder: Path, text: str) -> Path:
    """A crate with one file."""
    (folder / "src").mkdir()
    (folder / "src" / "a.rt").write_text(text)
    return folder


def text_with_mutant(folder: Path, text: str, mutant: Mutant) -> str:
    crate = make_crate(folder, text)
    apply_mutant(mutant, crate)
    return (crate / "src" / "a.rt").read_text()


def make_mutant(*changes: TextChange, test: str = "") -> Mutant:
    return Mutant("a", [], test, list(changes))


def test_old_texts_are_found_by_their_octets(tmp_path: Path) -> None:
    mutant = make_mutant(TextChange("src/a.rt", "  b", " c"))
    assert text_with_mutant(tmp_path, "a b\n  b\n", mutant) == "a b\n c\n"


def test_old_texts_of_mutants_with_tests_are_found_by_their_words(tmp_path: Path) -> None:
    mutant = make_mutant(TextChange("src/a.rt", "f(a); g(b);", "g(b);"), test="run x")
    assert text_with_mutant(tmp_path, "{\n    f(a);\n\n    g(b);\n}\n", mutant) == "{\n    g(b);\n}\n"


def test_old_texts_are_found_in_the_text_before_all_changes(tmp_path: Path) -> None:
    """Neither change finds the text that the other one puts in, whichever comes first."""
    mutant = make_mutant(TextChange("src/a.rt", "y", "x"), TextChange("src/a.rt", "x", "y"), test="run x")
    assert text_with_mutant(tmp_path, "x y", mutant) == "y x"


@pytest.mark.parametrize(
    "change, why",
    [
        (TextChange("src/a.rt", "x", "y"), "'x' stands in src/a.rt 2 times, and not once"),
        (TextChange("src/a.rt", "z", "y"), "'z' stands in src/a.rt 0 times, and not once"),
        (TextChange("src/a.rt", "b", "b"), "nothing is changed in src/a.rt"),
        (TextChange("src/b.rt", "x", "y"), "there is no file src/b.rt"),
    ],
)
@pytest.mark.parametrize("test", ["", "run x"])
def test_what_cannot_be_applied(tmp_path: Path, change: TextChange, why: str, test: str) -> None:
    with pytest.raises(MutantError) as error:
        text_with_mutant(tmp_path, "x b x", make_mutant(change, test=test))
    assert str(error.value) == why


CRATES = [
    (crate, mutant)
    for kind in ("contracts", "tests")
    for crate, mutants in read_crate_mutants(TOP, kind).items()
    for mutant in mutants
]


@pytest.mark.parametrize("crate, mutant", CRATES, ids=[f"{crate}-{mutant.name}" for crate, mutant in CRATES])
def test_mutants_of_crates(crate: str, mutant: Mutant) -> None:
    """Each finds what it takes away, once."""
    assert list(files_and_texts_changed_by_mutant(mutant, TOP / "crates" / crate))


PYTHON = [(file, mutant) for file, mutants in read_python_mutants(TOP).items() for mutant in mutants]


@pytest.mark.parametrize("file, mutant", PYTHON, ids=[f"{file}-{mutant.name}" for file, mutant in PYTHON])
def test_mutants_of_python_and_shell(file: str, mutant: Mutant) -> None:
    """Each finds what it takes away, once, and names a test that is there."""
    assert list(files_and_texts_changed_by_mutant(mutant, TOP))
    test = parse_test_kind_and_place(FileMutant(file, mutant))
    if test.kind == "shell":
        text = "".join(it.read_text() for it in (TOP / "tests" / "shell").glob(f"{test.place}.sh"))
        assert f"expect {test.line} " in text
    else:
        path, _, name = test.place.partition("::")
        folder = TOP / ("client/tests" if test.kind == "client" else "tests")
        assert f"def {name.partition('[')[0]}(" in (folder / path).read_text()


def test_a_mutant_of_python_and_shell_is_of_any_file_of_the_tree() -> None:
    (mutant,) = parse_mutants_of_text("# a\nfails: shell b c\nfile: check\nold: x\nnew: y\n", True, ())
    assert (mutant.test, mutant.changes) == ("shell b c", [TextChange("check", "x", "y")])
    for path in ("/check", "../check", "a/../../check"):
        with pytest.raises(MutantError) as error:
            parse_mutants_of_text(f"# a\nfails: shell b c\nfile: {path}\nold: x\nnew: y\n", True, ())
        assert str(error.value) == f"3: 'file: {path}' has to name a file of the tree, before 'old:'"


@pytest.mark.parametrize(
    "test, wanted",
    [
        ("client test_a.py::test_b", NamedTest("client", "test_a.py::test_b")),
        ("tests test_a.py", NamedTest("tests", "test_a.py")),
        ("shell links own-link", NamedTest("shell", "links", "own-link")),
    ],
)
def test_a_mutant_names_its_test(test: str, wanted: NamedTest) -> None:
    assert parse_test_kind_and_place(FileMutant("a", make_mutant(test=test))) == wanted


@pytest.mark.parametrize("test", ["client", "shell links", "run a title", "client a b"])
def test_what_names_no_test(test: str) -> None:
    with pytest.raises(MutantError):
        parse_test_kind_and_place(FileMutant("a", make_mutant(test=test)))


@pytest.mark.parametrize(
    "test, status, printed, passes, fails",
    [
        (NamedTest("client", "a"), 0, "1 passed", True, False),
        (NamedTest("client", "a"), 1, "1 failed", False, True),
        (NamedTest("client", "a"), 4, "no such test", False, False),
        (NamedTest("tests", "a"), 2, "an import that fails", False, False),
        (NamedTest("tests", "a"), 124, "", False, True),
        (NamedTest("shell", "a", "b"), 1, "ok shell b\nFAILED shell c:\n", True, False),
        (NamedTest("shell", "a", "b"), 1, "ok shell bb\nFAILED shell b:\n", False, True),
        (NamedTest("shell", "a", "b"), 2, "a: not found\n", False, False),
    ],
)
def test_the_verdict_of_a_test(test: NamedTest, status: int, printed: str, passes: bool, fails: bool) -> None:
    assert (
        test.has_passed_by_status_and_output(status, printed),
        test.has_failed_or_timed_out_by_status_and_output(status, printed),
    ) == (passes, fails)


def test_tests_are_run_in_a_copy(tmp_path: Path) -> None:
    folder, words = command_of("client", ["test_a.py", "test_b.py::c"], tmp_path)
    assert (folder, words[-2:]) == (tmp_path / "client", ["tests/test_a.py", "tests/test_b.py::c"])
    folder, words = command_of("tests", ["test_a.py"], tmp_path)
    assert (folder, words[-3:]) == (tmp_path, ["-c", "tests/pytest.ini", "tests/test_a.py"])
    assert command_of("shell", ["links"], tmp_path) == (tmp_path, [tmp_path / "tests" / "shell.sh", "links"])


class PassingCopies(TreeCopies):
    """Copies in which each test passes; `calls` has those that were run together."""

    calls: "list[tuple[str, list[str], str]]" = []

    def run_tests_returning_status_and_output(
        self, kind: str, places: Sequence[str], tree: Path, line: str = ""
    ) -> "tuple[int, str]":
        self.calls.append((kind, [*places], line))
        return 0, f"ok shell {line}\n"


def test_each_line_of_shell_is_run_alone_before_a_mutant_is_applied(tmp_path: Path) -> None:
    """One that needs those before it would fail with any mutant, and so would see each."""
    copies = PassingCopies(tmp_path, 1)
    copies.idle.put(tmp_path)
    lines = [NamedTest("shell", "links", it) for it in ("one", "other")]
    refuse_failing_tests([*lines, NamedTest("tests", "a"), NamedTest("tests", "b")], copies, 1)
    assert copies.calls == [("shell", ["links"], "one"), ("shell", ["links"], "other"), ("tests", ["a", "b"], "")]


def test_a_mutant_is_taken_back(tmp_path: Path) -> None:
    path = make_crate(tmp_path, "a b\n") / "src" / "a.rt"
    with mutant_applied(FileMutant("x", make_mutant(TextChange("src/a.rt", "b", "c"), test="tests a")), tmp_path):
        assert path.read_text() == "a c\n"
    assert path.read_text() == "a b\n"


@pytest.mark.parametrize(
    "mutant",
    [
        *parse_mutants_of_text((TOP / "bench/rules.mutants").read_text(), folders=()),
        *parse_mutants_of_text((TOP / "bench/search.mutants").read_text(), need_tests=True, folders=()),
    ],
)
def test_mutants_of_benches_can_be_applied(mutant: Mutant) -> None:
    assert list(files_and_texts_changed_by_mutant(mutant, TOP))


# Proves any library, and reports each mutant of a crate as refused, but for two.
KIT = """#!/bin/sh
[ "$1" = must-fail ] || exit 0
for edit in crates/$2/must-fail/*.edit; do
    case $edit in
        */acknowledged_octets_stay.edit) echo "must-fail $edit: still proved" ;;
        */empty_run_is_lent.edit) echo "must-fail $edit: refused, as it must be; says little of the contract" ;;
        *) echo "must-fail $edit: refused, as it must be" ;;
    esac
done
"""


def run_tool(folder: Path, *arguments: str) -> "subprocess.CompletedProcess[str]":
    """Runs tools/mutants.py with this kit."""
    kit = folder / "rt"
    kit.write_text(KIT)
    kit.chmod(0o755)
    path = f"{folder}:{os.environ['PATH']}"
    command = (str(TOP / "tools" / "mutants.py"), *arguments)
    return subprocess.run(command, env={**os.environ, "PATH": path}, capture_output=True, text=True, timeout=60)


def test_those_not_refused_are_counted(tmp_path: Path) -> None:
    done = run_tool(tmp_path, "contracts", "pd_seg", "pd_board")
    count = {crate: len(mutants) for crate, mutants in read_crate_mutants(TOP, "contracts").items()}
    *_, board, seg, whole = done.stdout.splitlines()
    refused = count["pd_board"] - 2
    assert board == f"pd_board: {refused} of {count['pd_board']} refused"
    assert seg == f"pd_seg: {count['pd_seg']} of {count['pd_seg']} refused"
    assert (whole, done.returncode) == (f"{refused + count['pd_seg']} refused, 2 not refused", 1)


def test_mutants_are_chosen_by_name(tmp_path: Path) -> None:
    done = run_tool(
        tmp_path, "contracts", "-j", "1", "--name", "twice_smss_suffices", "--name", "total_stays_after_ack"
    )
    assert (done.stdout.splitlines()[-1], done.returncode) == ("2 refused, 0 not refused", 0)


@pytest.mark.parametrize(
    "arguments, why",
    [
        (("contracts", "pd_nothing"), "mutants: there is no crates/pd_nothing/contracts.mutants\n"),
        (("python", "client/nothing.mutants"), "mutants: there is no client/nothing.mutants\n"),
        (("tests", "pd_board"), "mutants: there is no crates/pd_board/tests.mutants\n"),
        (("contracts", "--name", "nothing"), "mutants: no mutant there has the name nothing\n"),
    ],
)
def test_arguments_that_choose_nothing(tmp_path: Path, arguments: "tuple[str, ...]", why: str) -> None:
    done = run_tool(tmp_path, *arguments)
    assert (done.stdout, done.stderr, done.returncode) == ("", why, 2)


def test_tests_are_run_as_often_and_as_long_as_the_options_say(tmp_path: Path, monkeypatch: pytest.MonkeyPatch) -> None:
    monkeypatch.setenv("TMPDIR", str(tmp_path))
    calls: list[tuple[object, ...]] = []

    def try_test_mutants(mutants: object, at_once: int, limits: RunLimits) -> int:
        calls.append((at_once, limits.times, limits.seconds))
        return 0

    monkeypatch.setattr(mutants_tool, "check_kit_on_path", lambda: None)
    monkeypatch.setattr(mutants_tool, "try_test_mutants_returning_status", try_test_mutants)
    for arguments in (["tests", "-j", "3", "--times", "7", "--seconds", "9"], ["tests", "-j", "1"]):
        assert mutants_tool.try_chosen_mutants(mutants_tool.make_parser().parse_args(arguments)) == 0
    assert calls == [(3, 7, 9), (1, 10, 40)]
