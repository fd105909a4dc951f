"""Runs of a sender that isn't proved: how a suite is cut into starts, what is read of their answers, and whole runs."""

import json
import signal
import subprocess
from pathlib import Path
from xml.etree import ElementTree

import pytest

from pdsuite.programs.batch_protocol import (
    ProgramAnswer,
    Case,
    answer_from_status,
    batch_input,
    parse_batch_answers_or_faults,
    split_into_batches_by_expected_output,
    take_whole_length_prefixed_parts,
)
from pdsuite.programs.program import ProgramEndedError
from pdsuite.programs.protocol import UnexpectedAnswerError
from pdsuite.programs.refusals import distinct_key_value_pairs, refusals_in_answer
from pdsuite.programs.unproved_programs import unproved_notice
from pdsuite.programs.verdict import Row, Verdict
from pdsuite.run.batches import SuiteScript
from pdsuite.run.unproved_run import (
    StartBatch,
    parse_explained_rows_of_batch,
    rows_and_unanswered_batches,
    runnable_scripts_in_output_sized_batches,
)
from pdsuite.scripts.config import Claim
from pdsuite.scripts.text import ScriptText, make_newline_ended_text_within_limits
from tests.helpers import TOP, ends, is_alive, wait_for, write
from tests.tree_fixture import Tree

FIRST = "unproved: building first, then running without proofs; {} proves the programs\n"
TOTAL = b"total %d pass 0 fail 0 syntax 0 unsupported 0 limit 0 pending 0\n"


@pytest.fixture
def tree(tmp_path: Path) -> Tree:
    """A tree in which nothing is proved."""
    return Tree(tmp_path)


def loaded(*texts: bytes) -> list[tuple[SuiteScript, ScriptText | str]]:
    """Scripts with these texts."""
    return [
        (SuiteScript(index, f"{index}.pkt", ()), make_newline_ended_text_within_limits(text))
        for index, text in enumerate(texts)
    ]


def batch(*texts: bytes) -> StartBatch:
    """The one batch of scripts with these texts."""
    (only,) = runnable_scripts_in_output_sized_batches(loaded(*texts))
    return only


def test_the_command_that_proves_is_one_word_for_a_shell(tmp_path: Path, monkeypatch: pytest.MonkeyPatch) -> None:
    monkeypatch.setattr("pdsuite.programs.unproved_programs.TOP", tmp_path / "a tree")
    assert unproved_notice(True) == f"unproved: running without proofs; '{tmp_path}/a tree/prove' proves the programs"


def test_settings_are_commands_before_the_scripts() -> None:
    script = SuiteScript(0, "a.pkt", (("mss", 1000), ("nagle", False), ("initial_window", "rfc6928")))
    (only,) = runnable_scripts_in_output_sized_batches([(script, make_newline_ended_text_within_limits(b"one\ntwo\n"))])
    assert only.input_commands() == b"set mss 1000\nset nagle false\nset initial_window rfc6928\nadd s0 2\none\ntwo\n"


def test_a_script_that_cannot_be_read_is_in_no_batch() -> None:
    scripts: list[tuple[SuiteScript, ScriptText | str]] = [
        (SuiteScript(0, "a.pkt", ()), "Is a directory"),
        *loaded(b"x\n"),
    ]
    assert [[script.path for script, _ in it.scripts] for it in runnable_scripts_in_output_sized_batches(scripts)] == [
        ["0.pkt"]
    ]
    assert runnable_scripts_in_output_sized_batches(scripts[:1]) == []


def test_scripts_of_which_much_may_be_told_are_in_several_batches() -> None:
    # 4,096 and 61,440 octets are expected of each: eight have just the room of a start.
    long = b"x" * 61_439 + b"\n"
    assert [len(it.scripts) for it in runnable_scripts_in_output_sized_batches(loaded(*[long] * 17))] == [8, 8, 1]
    assert [len(it.scripts) for it in runnable_scripts_in_output_sized_batches(loaded(*[b"x\n"] * 64))] == [64]


def test_rows_and_what_is_told_come_to_their_scripts() -> None:
    rows = b"s0 pass 3\ns1 fail 2 seq\n" + TOTAL % 2
    reported = b'{"name": "s1", "line": 2, "what": "other octets"}\n'
    found = parse_explained_rows_of_batch(batch(b"one\n", b"one\ntwo\n"), ProgramAnswer(rows, reported))
    cause = {"name": "s1", "line": 2, "what": "other octets"}
    assert found == {0: (Row(Verdict.PASS, 3), None), 1: (Row(Verdict.FAIL, 2, "seq"), cause)}


def test_what_is_told_of_another_line_or_script_is_of_none() -> None:
    rows = b"s0 fail 2 seq\n" + TOTAL % 1
    for name, line in ((b"s0", 3), (b"s1", 2)):
        reported = b'{"name": "%b", "line": %d}\n' % (name, line)
        assert parse_explained_rows_of_batch(batch(b"one\n"), ProgramAnswer(rows, reported)) == {
            0: (Row(Verdict.FAIL, 2, "seq"), None)
        }


@pytest.mark.parametrize("rows", [b"", b"s0 pass 1\n", b"s0 pending\n" + TOTAL % 1, b"s0 pass 1\n" + TOTAL % 2])
def test_an_answer_that_is_not_the_report_of_the_batch_is_none(rows: bytes) -> None:
    with pytest.raises(UnexpectedAnswerError):
        parse_explained_rows_of_batch(batch(b"x\n"), ProgramAnswer(rows, b""))
    assert rows_and_unanswered_batches([batch(b"x\n")], [ProgramAnswer(rows, b"")])[0] == {}


def test_a_batch_without_an_answer_is_kept_with_the_reason() -> None:
    one = batch(b"x\n")
    _, unheard = rows_and_unanswered_batches([one], [ProgramAnswer(b"", b"", "TooSlow: it took long")])
    assert unheard == [(one, "pdregress: TooSlow: it took long")]


def test_each_setting_is_asked_once_and_each_claim_of_a_refused_one_is_told() -> None:
    claims = [Claim(place, "", key, value) for place, key, value in (("a", "mss", 0), ("b", "mss", 0), ("b", "x", 1))]
    assert distinct_key_value_pairs(claims) == [("mss", "0"), ("x", "1")]
    answer = b"refused 4 BadValue\n" + TOTAL % 0 + TOTAL % 0 + TOTAL % 0
    lines = [it.refusal_line for it in refusals_in_answer(claims, answer)]
    assert [line.split(": ")[:3] for line in lines] == [["a", "mss", "BadValue"], ["b", "mss", "BadValue"]]
    with pytest.raises(ProgramEndedError):
        refusals_in_answer(claims, answer + TOTAL % 0)


def test_a_start_that_ends_by_a_fault_has_no_answer() -> None:
    assert answer_from_status(b"rows", b"told", "1") == ProgramAnswer(b"rows", b"told")
    assert answer_from_status(b"rows", b"x\npdregress: 19 OutOfMemory\n", "2") == ProgramAnswer(
        b"", b"", "pdregress: 19 OutOfMemory"
    )
    refused = b"error: unexpected argument '-x' found\n\nFor more information, try '--help'.\n"
    assert answer_from_status(b"", refused, "2") == ProgramAnswer(b"", b"", "error: unexpected argument '-x' found")
    assert answer_from_status(b"", b"", "2") == ProgramAnswer(b"", b"", "ended with status 2")
    assert answer_from_status(b"rows", b"told", "TooSlow: it took long") == ProgramAnswer(
        b"", b"", "TooSlow: it took long"
    )


def test_starts_share_a_run_as_far_as_its_room_goes_but_for_those_that_are_to_be_alone() -> None:
    small, large, alone = Case(("a",), b"x"), Case(("b",), b"y", 500_000), Case(("c",), b"z", is_alone=True)
    cases = [small, small, large, alone, small, large, large]
    assert list(split_into_batches_by_expected_output(cases)) == [
        [small, small, large],
        [alone],
        [small, large],
        [large],
    ]
    assert list(split_into_batches_by_expected_output([])) == []


def test_a_run_gets_the_words_and_inputs_of_its_starts_and_answers_each() -> None:
    cases = [Case(("pdrecord", "--settings", "a = 1\nb = 2"), b"one\n"), Case(("pdregress",), b"")]
    assert batch_input(cases) == b"31\npdrecord\0--settings\0a = 1\nb = 24\none\n9\npdregress0\n"
    output = b"2\n+0" b"0\n" b"2\n0\n" b"0\n" b"9\na: 19 Out" b"2\n2\n"
    assert parse_batch_answers_or_faults(output, b"", "0", 2) == [
        ProgramAnswer(b"+0", b""),
        ProgramAnswer(b"", b"", "a: 19 Out"),
    ]


@pytest.mark.parametrize(
    ("output", "status", "why"),
    [(b"", "Faulted: a failed unwrap", "Faulted: a failed unwrap"), (b"2\n+0", "0", "ended with status 0")],
)
def test_a_run_without_an_answer_has_none_for_its_starts(output: bytes, status: str, why: str) -> None:
    assert parse_batch_answers_or_faults(output, b"", status, 1) == [ProgramAnswer(b"", b"", why)]
    assert parse_batch_answers_or_faults(output, b"", status, 2) == [ProgramAnswer(b"", b"", why, True)] * 2


def test_parts_are_taken_once_they_are_whole() -> None:
    octets = bytearray(b"2\nab3\nx")
    assert (list(take_whole_length_prefixed_parts(octets)), octets) == ([b"ab"], b"3\nx")
    octets += b"yz0\n1"
    assert (list(take_whole_length_prefixed_parts(octets)), octets) == ([b"xyz", b""], b"1")


def test_what_is_built_stands_on_the_libraries_of_both_programs() -> None:
    words = ["/usr/bin/python3", "-B", "-m", "doctest", "run_batch.py"]
    assert subprocess.run(words, cwd=TOP / "tools", capture_output=True).stdout == b""


def test_a_suite_runs_in_one_build_with_its_explanations_and_says_that_nothing_is_proved(tree: Tree) -> None:
    write(tree.suite, a=b"row pass 9\n", b=b"row fail 1 seq\ntold\n")
    write(tree.suite / "c", c=b"told mss\n")
    (tree.suite / "c/pdsuite.toml").write_text("mss = 1000\nsack = false\n")
    called = tree.call("run", "suite")
    assert (called.status, called.err) == (1, "pdsuite: " + FIRST.format(tree.top / "prove"))
    assert called.out.splitlines()[:2] == ["suite/b.pkt:1: fail seq: so it is", "  found: told"]
    assert called.totals == {"pass": 2, "fail": 1}
    assert called.out.endswith(" s UNPROVED\n")
    assert tree.builds() == 1
    assert tree.call("run", "-v", "suite").rows[-1] == "suite/c/c.pkt: pass 1000"


@pytest.mark.parametrize("form", ["--tap", "--json", "--github"])
def test_each_form_of_the_report_says_that_nothing_is_proved(tree: Tree, form: str) -> None:
    write(tree.suite, a=b"row pass 9\n")
    last = tree.call("run", form, "suite").out.splitlines()[-1]
    assert last.endswith(', "UNPROVED": true}' if form == "--json" else " s UNPROVED")


def test_junits_xml_and_the_page_say_that_nothing_is_proved(tree: Tree) -> None:
    write(tree.suite, a=b"row pass 9\n")
    assert tree.call("run", "--junit", "out.xml", "--html", "page", "suite").status == 0
    top = tree.suite.parent
    found = ElementTree.parse(top / "out.xml").findall("testsuite/properties/property")
    assert [it.attrib for it in found] == [{"name": "UNPROVED", "value": "true"}]
    for page in (top / "page/index.html", *(top / "page/scripts").iterdir()):
        assert '<p class="unproved">UNPROVED: the sender ran without proofs.</p>' in page.read_text()


def test_a_proved_sender_is_marked_nowhere(tree: Tree) -> None:
    write(tree.suite, a=b"row pass 9\n")
    words = ("--json", "--junit", "out.xml", "--html", "page", "suite")
    called = tree.call("run", *words, PDSUITE_PROGRAMS=str(tree.bin))
    assert called.status == 0 and set(json.loads(called.out)) == {"version", "scripts", "total", "seconds"}
    for file in ("out.xml", "page/index.html"):
        assert "UNPROVED" not in (tree.suite.parent / file).read_text()


@pytest.mark.parametrize("words", [("run", "--proved"), ("watch",), ("run", "--scheduler", "tcp://localhost:1")])
def test_what_needs_proved_programs_names_what_proves_them(tree: Tree, words: tuple[str, ...]) -> None:
    write(tree.suite, a=b"row pass 9\n")
    called = tree.call(*words, "suite")
    assert (called.status, called.out) == (2, "")
    assert called.err.endswith("pdregress isn't proved and built, or has changed since: run ./prove pdregress\n")
    assert tree.builds() == 0


def test_settings_that_the_program_refuses_are_told_after_one_build(tree: Tree) -> None:
    write(tree.suite, a=b"refuse 4 BadValue\n")
    (tree.suite / "pdsuite.toml").write_text('["b.pkt"]\nmss = 1000\n')
    called = tree.call("run", "suite")
    assert (called.status, called.out) == (2, "")
    assert called.err.startswith('suite/pdsuite.toml:1: ["b.pkt"]: no script') and tree.builds() == 0


def test_a_sender_that_does_not_compile_is_told_with_the_places_of_its_errors(tree: Tree) -> None:
    write(tree.suite, a=b"row pass 9\n")
    wrong = tree.top / "crates/pdregress/src/main.rt"
    wrong.touch()
    called = tree.call("run", "suite")
    assert (called.status, called.out) == (2, "")
    assert called.err.splitlines()[1:] == [
        "pdsuite: unproved: NotCompiled: the program doesn't compile",
        f"{wrong}:1:2: error[mismatched-types]: wrong",
    ]


def test_without_the_kit_there_is_a_line_that_says_so(tree: Tree) -> None:
    write(tree.suite, a=b"row pass 9\n")
    called = tree.call("run", "suite", PATH="/usr/bin:/bin")
    message = "pdsuite: unproved: NoKit: the Rattle kit's command 'rt' has to be on the PATH"
    assert (called.status, called.err.splitlines()[-1]) == (2, message)


def test_scripts_of_a_start_that_ends_early_are_run_once_more_one_by_one(tree: Tree) -> None:
    write(tree.suite, a=b"row pass 9\n", b=b"crash\n", c=b"row fail 1 seq\n")
    called = tree.call("run", "-v", "suite")
    assert called.status == 2 and tree.builds() == 2
    again = "pdsuite: pdregress: Faulted: a failed unwrap; 3 scripts are run again, each by itself"
    assert called.err.splitlines()[1:] == [again]
    assert called.rows == [
        "suite/a.pkt: pass 9",
        "suite/b.pkt: error: pdregress: Faulted: a failed unwrap",
        "suite/c.pkt:1: fail seq",
    ]


def test_a_signal_while_it_is_built_ends_all(tree: Tree) -> None:
    write(tree.suite, a=b"row pass 9\n")
    (tree.notes / "stall").touch()
    process = subprocess.Popen(
        [tree.top / "pdsuite", "run", "suite"],
        cwd=tree.suite.parent,
        env=tree.environment,
        stdout=subprocess.PIPE,
        stderr=subprocess.PIPE,
        process_group=0,
    )
    wait_for(tree.notes / "mark", process)
    status, out, _ = ends(process, signal.SIGTERM)
    assert (status, out) == (128 + signal.SIGTERM, "")
    assert not is_alive(int((tree.notes / "mark").read_text()))
