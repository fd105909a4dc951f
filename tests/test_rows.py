"""Tests of what runs rows: how rows of each kind call a fake program, and that a wrong answer is seen."""

import re
from collections.abc import Callable, Iterator
from dataclasses import dataclass, field, replace
from pathlib import Path
from typing import Any, Optional

import pytest

from harness.accept import run_and_accept_files
from harness.calls import ProgramCall, ProgramOutput, run_test_alone
from harness.answered_tables import answered_tables_in
from harness.compare import RowResult, report_of_verdicts
from harness.kinds import KINDS, read_groups
from harness.affected import affected_rows
from harness.random_scripts import RandomScript
from harness.recordings import check_recordings
from harness.rewrite import escape_octets

FakeProgram = Callable[[ProgramCall], Optional[ProgramOutput]]
EMPTY_REPORT = report_of_verdicts({})


@dataclass
class RowFixture:
    """Writes a file of rows, runs it by a fake program, and keeps the calls."""

    file: Path
    calls: list[ProgramCall] = field(default_factory=list)

    def faults(self, text: str, program: FakeProgram) -> dict[str, str]:
        """The fault of each case that has one, by its name."""
        return {name: it.fault or "unanswered" for name, it in self.results(text, program) if it != RowResult()}

    def results(self, text: str, program: FakeProgram) -> Iterator[tuple[str, RowResult]]:
        self.file.write_text(text)
        for group in read_groups(self.file):
            steps = group.kind.check_cases(group.cases)
            results = run_test_alone(steps, lambda calls: [self.answer(program, it) for it in calls])
            yield from zip((case.name for case in group.cases), results)

    def answer(self, program: FakeProgram, call: ProgramCall) -> Optional[ProgramOutput]:
        self.calls.append(call)
        return program(call)


@pytest.fixture
def fixture(tmp_path: Path) -> RowFixture:
    return RowFixture(tmp_path / "a.cases")


def scripts_of(call: ProgramCall) -> dict[str, bytes]:
    """The scripts that an input adds."""
    lines, scripts = iter(call.given.split(b"\n")), {}
    for line in lines:
        if found := re.fullmatch(rb"add (\w+) (\d+)", line):
            scripts[found[1].decode()] = b"\n".join(next(lines) for _ in range(int(found[2])))
    return scripts


def answer_as_pdregress(call: ProgramCall) -> ProgramOutput:
    """A fake of pdregress: a script passes unless it has an x."""
    return report_of_verdicts(
        {name: "fail 1 result" if b"x" in text else "pass 1" for name, text in scripts_of(call).items()}
    )


def always_writes(output: str = "", errors: str = "", status: int = 0) -> FakeProgram:
    return lambda _: ProgramOutput(output.encode(), errors.encode(), status)


SCRIPTS = "[a] scripts\npass 1: 0\nfail 1 result: x\npass 1 under mss 500, --a: x\n"


def test_scripts_are_run_together_and_where_that_differs_alone(fixture: RowFixture) -> None:
    (name, fault), *others = fixture.faults(SCRIPTS, answer_as_pdregress).items()
    assert (name, others) == ("line-4", [])
    assert "\n-> a1 pass 1\n" in fault and "\n+> a1 fail 1 result\n" in fault
    together, under, alone = (it.given for it in fixture.calls)
    assert together == b"add a1 1\n0\nadd a2 1\nx\n"
    assert under == alone == b"set mss 500\nadd a1 1\n--a x\n"


def test_what_differs_together_alone_is_a_fault_of_the_first(fixture: RowFixture) -> None:
    faults = fixture.faults(
        SCRIPTS, lambda call: answer_as_pdregress(call) if len(scripts_of(call)) == 1 else EMPTY_REPORT
    )
    assert faults["line-2"].startswith("run with those after it:\n")


@pytest.mark.parametrize(
    "change, shown",
    [
        ({"status": 2}, ("\n-= 1\n", "\n+= 2")),
        ({"errors": b"no memory\n"}, ("\n+! no memory\n",)),
        ({"status": 0}, ("\n-= 1\n", "\n+= 0")),
    ],
)
def test_the_right_report_with_another_status_or_error_text_is_a_fault(
    change: dict[str, Any], shown: tuple[str, ...], fixture: RowFixture
) -> None:
    """Run together, and where that differs alone too."""
    faults = fixture.faults(
        "[a] scripts\npass 1: 0\nfail 1 result: x\n", lambda it: replace(answer_as_pdregress(it), **change)
    )
    assert all(it in faults["line-3"] for it in shown)
    together = fixture.faults(
        "[a] scripts\nfail 1 result: x\nfail 1 result: xx\n",
        lambda it: replace(answer_as_pdregress(it), **change) if len(scripts_of(it)) == 2 else answer_as_pdregress(it),
    )
    assert list(together) == ["line-2"] and all(it in together["line-2"] for it in shown)


STORY = """[before] opening
< 0
> 1

[a] stories of pdrecord
# a comment
# the title
$ -v
* 2
after before
<# 1 2 b#
+ c after before: d\\ne
~ f
> g
! h
= 1
"""


def test_a_story_is_run_with_workers_too(fixture: RowFixture) -> None:
    assert fixture.faults(STORY, always_writes("1\ng\n", "h\n", 1)) == {}
    alone, with_workers = fixture.calls
    assert alone == ProgramCall("pdrecord", (b"-v",), b"0\nb1\nb2\nadd c 3\n0\nd\ne\nf")
    assert with_workers == ProgramCall("pdrecord", (b"-v", b"--workers", b"2"), alone.given)


@pytest.mark.parametrize(
    "answer",
    [
        always_writes("1\ng\n", "h\n", 2),
        always_writes("1\n", "g\nh\n", 1),
        always_writes("1\ng\nh\n", "", 1),
        always_writes("1\ng", "h\n", 1),
    ],
)
def test_another_answer_to_a_story_is_seen(answer: FakeProgram, fixture: RowFixture) -> None:
    assert list(fixture.faults(STORY, answer)) == ["the-title", "the-title-2"]


def test_blocks_are_compared_by_their_first_lines(fixture: RowFixture) -> None:
    text = "[a] stories\n# b\n!~ a:1:\n!~ {}\n! c\n= 0\n"
    assert fixture.faults(text, always_writes("", 'a:1: fail\n  more\n{"b": 1}\nc\n')) == {}
    assert list(fixture.faults(text, always_writes("", "a:2: fail\n{}\nc\n"))) == ["b"]


def test_arguments_are_refused_before_anything_is_read(fixture: RowFixture) -> None:
    refused = ProgramOutput(b"", b"no such word\n\nmore\n", 2, read=0)
    wrong = {
        b"-b": replace(refused, errors=b""),
        b"-c": replace(refused, read=8),
        b"-d": None,
        b"-e": replace(refused, errors=b"another text\n"),
        b"-f": replace(refused, status=0),
        b"-g": replace(refused, output=b"total 0\n"),
        b"-h": replace(refused, read=None),
    }
    assert fixture.faults("[a] refusals\nno such word | $ -a b\n", lambda _: refused) == {}
    assert fixture.calls[-1].arguments == (b"-a", b"b")
    rows = "".join(f"no such word | $ {word.decode()}\n" for word in wrong)
    faults = fixture.faults(f"[a] refusals\n{rows}", lambda call: wrong[call.arguments[0]])
    assert list(faults) == [f"line-{number}" for number in range(2, 9)]
    assert [it for it, fault in faults.items() if fault == "unanswered"] == ["line-4", "line-8"]


def test_settings_lines_and_cut_inputs(fixture: RowFixture) -> None:
    rows = "ok | < set mss 500\n4 BadValue | < set mss 500\n15 BadCommand | < bye\n"
    text = f"[a] refusals\n{rows}[c] cuts\npass 1 | add a 1\\n\n16 Truncated | 0\n"
    faults = fixture.faults(text, always_writes("", "pdregress: 16 Truncated\n", 2))
    assert list(faults) == ["line-2", "line-3", "line-4", "line-6"]
    assert fixture.calls[:2] == [
        ProgramCall("pdregress", (), b"set mss 500\n"),
        ProgramCall("pdregress", (b"--settings", b"mss = 500")),
    ]


def test_explanations_and_beginnings(fixture: RowFixture) -> None:
    block = b'{"name": "a1", "verdict": "syntax", "line": 1, "column": 0, "text": "0", "expected": ["b", "c"]}\n'
    output = ProgramOutput(b"a1 syntax 1\ntotal 1\n", block, 1)
    assert fixture.faults("[a] explained\n> syntax 1 column 0: b | c\n< 0\n", lambda _: output) == {}
    assert list(fixture.faults("[a] explained\n> syntax 1 end: b\n< 0\n< 1\n", lambda _: output)) == [
        "line-3",
        "line-4",
    ]
    assert list(fixture.faults("[a] beginnings\n0\n", lambda _: output)) == ["line-2"]


@pytest.mark.parametrize(
    "verdict, block, is_well",
    [
        ("syntax 1", '"line": 1, "column": null, "text": "0", "expected": ["b"]', True),
        ("syntax 1", '"line": 1, "column": 0, "text": "0", "expected": ["b"]', True),
        ("syntax 1", '"line": 2, "column": null, "text": "0", "expected": ["b"]', False),
        ("syntax 1", '"line": 1, "column": null, "text": "0", "expected": []', False),
        ("syntax 1", '"line": 1, "column": 1, "text": "0", "expected": ["b"]', False),
        ("pass 0", '"line": 1', True),
    ],
)
def test_what_may_stand_after_a_beginning_is_explained(
    verdict: str, block: str, is_well: bool, fixture: RowFixture
) -> None:
    def explain(call: ProgramCall) -> ProgramOutput:
        names = list(scripts_of(call))
        rows = "".join(f"{name} {verdict}\n" for name in names)
        blocks = "".join(f'{{"name": "{name}", "verdict": "{verdict[:6]}", {block}}}\n' for name in names)
        return ProgramOutput(rows.encode(), blocks.encode(), 1)

    assert (fixture.faults("[a] beginnings\n0\n", explain) == {}) is is_well


def test_an_explanation_of_a_limit_has_its_number(fixture: RowFixture) -> None:
    block = b'{"name": "a1", "verdict": "limit", "line": 1, "rule": "time", "limit": 3600, "rule_words": "a time"}\n'
    output = ProgramOutput(b"a1 limit 1\ntotal 1\n", block, 1)
    assert fixture.faults("[a] explained\n> limit 1 time 3600: a time\n< 0\n", lambda _: output) == {}
    other = ProgramOutput(output.output, block.replace(b'"limit": 3600, ', b""), 1)
    assert fixture.faults("[a] explained\n> limit 1 time: a time\n< 0\n", lambda _: other) == {}


def test_octets_and_cuts(fixture: RowFixture) -> None:
    text = "[a] octets\n= pass 1: 0@\n- fail 1 result: x\n[b] cuts\nsyntax 1 | x\nfail 1 result | y\\n\npass 1 | x\n"
    faults = fixture.faults(text, answer_as_pdregress)
    assert list(faults) == ["line-5", "line-7"] and "syntax 1" in faults["line-5"]
    assert len(scripts_of(fixture.calls[0])) == 255


@pytest.mark.parametrize(
    "change, fault, other",
    [
        (lambda text: text + b"c\n", "another recording of the recording", "another recording of the recording"),
        (lambda text: text.replace(b"/**/", b""), "without {b'/**/': 1}, and with {} besides", ""),
    ],
)
def test_what_holds_of_each_recording(change: Callable[[bytes], bytes], fault: str, other: str) -> None:
    def record(call: ProgramCall) -> ProgramOutput:
        """Writes the events, and with --trace their times."""
        if call.program == "pdregress":
            return report_of_verdicts({name: "pass 1" for name in scripts_of(call)})
        plain = b"\n".join(it for it in call.given.split(b"\n") if not it.startswith(b"//="))
        trace = b"//= at 0.000000 CLOSED\n" if b"--trace" in call.arguments else b""
        return ProgramOutput(plain + trace, b"", 0)

    def record_wrongly(call: ProgramCall) -> ProgramOutput:
        output = record(call)
        return output if call.program == "pdregress" else ProgramOutput(change(output.output), b"", 0)

    scripts = [RandomScript("a", "", b"0 b /**/\n"), RandomScript("d", "", b"0 e\n")]
    for program, wanted in ((record, ["", ""]), (record_wrongly, [f"a: {fault}", f"d: {other}" if other else ""])):
        found = run_test_alone(check_recordings(scripts), lambda calls: [program(it) for it in calls])
        assert [(it.fault.split("\n")[0], it.is_unanswered) for it in found] == [(it, False) for it in wanted]
    unanswered = run_test_alone(
        check_recordings(scripts), lambda calls: [None if it.program == "pdrecord" else EMPTY_REPORT for it in calls]
    )
    assert [it.is_unanswered for it in unanswered] == [True, True]


@pytest.mark.parametrize(
    "row, fault",
    [("pass 1", ""), ("pass 2", "a: pass 2, with 1 events"), ("fail 1 seq", "a: fail 1 seq, with 1 events")],
)
def test_a_recording_passes_with_all_of_its_events(row: str, fault: str) -> None:
    def answer(call: ProgramCall) -> ProgramOutput:
        if call.program == "pdregress":
            return report_of_verdicts({name: row for name in scripts_of(call)})
        trace = b"//= at 0.000000 CLOSED\n" if b"--trace" in call.arguments else b""
        return ProgramOutput(call.given.split(b"//=")[0] + trace, b"", 0)

    (found,) = run_test_alone(
        check_recordings([RandomScript("a", "", b"0 b\n")]), lambda calls: [answer(it) for it in calls]
    )
    assert found == RowResult(fault)


REFUSED = "a refusal is of `$ ARGUMENTS`, `< set KEY VALUE`, or with 15 BadCommand any `< LINE`"


@pytest.mark.parametrize(
    "text, why",
    [
        ("[a] nothing\nb\n", "1: [a] nothing: there is no such kind"),
        ("[a] scripts\nno\n", "2: no: a row has a colon after its verdict"),
        ("[a] scripts\npass 1: \\q\n", "2: pass 1: \\q: there is no such escape"),
        ("[a] scripts after b\npass 0:\n", "1: [a] scripts after b: there is no such opening"),
        ("[a] refusals\nok | mss 64\n", f"2: ok | mss 64: {REFUSED}"),
        ("[a] refusals\n4 BadValue | < bye\n", f"2: 4 BadValue | < bye: {REFUSED}"),
        ("[a] scripts\n# b\n", "1: [a] scripts: a table has a row at least"),
        ("[a] opening\n< 0\n[a] opening\n< 1\n", "3: [a] opening: an opening has this name"),
        ("[a] stories\n# b\n> c\n", "3: > c: the last story has no status"),
        (
            "[a] random rows of pdrecord\n3 by reno\n",
            "2: 3 by reno: a row is `COUNT WHAT from SEED`, and WHAT is drawn for the program",
        ),
        ("[a] stories\n= 3\n", "2: = 3: a status is 0, 1 or 2"),
        ("pass 0:\n", "1: pass 0:: a row stands in a table"),
        ("", "a file has a table at least"),
    ],
)
def test_what_is_not_written_as_its_kind_wants_it_fails(text: str, why: str, fixture: RowFixture) -> None:
    (fault,) = fixture.faults(text, answer_as_pdregress).values()
    assert fault.endswith(why) and not fixture.calls


def test_of_the_faults_of_a_case_three_are_shown() -> None:
    faults = [RowResult(it) for it in "abcd"]
    assert RowResult.join_results(faults[:3]).fault == "a\nb\nc"
    assert RowResult.join_results(faults).fault == "a\nb\nc\nand 1 more"


@dataclass
class AcceptFixture:
    """Writes the answers of a fake program into a file of rows, and keeps the messages."""

    fixture: RowFixture
    accepted: list[str] = field(default_factory=list)
    refused: list[str] = field(default_factory=list)

    def text(self, text: str, program: FakeProgram) -> str:
        """The file after that."""
        self.fixture.file.write_text(text)
        above = f"{self.fixture.file.parent}/"
        for rows, others in run_and_accept_files([self.fixture.file], lambda calls: [program(it) for it in calls]):
            self.accepted += [it.removeprefix(above) for it in rows]
            self.refused += [it.removeprefix(above) for it in others]
        return self.fixture.file.read_text()


@pytest.fixture
def accepting(fixture: RowFixture) -> AcceptFixture:
    return AcceptFixture(fixture)


MARKED = "#? taken from the program: work it out by hand, and then take this line away\n"


def test_verdicts_are_accepted_each_with_a_mark(accepting: AcceptFixture) -> None:
    text = "[a] scripts\n# b\npass 1: 0\npass 1 under mss 500: a: x\nfail 1 result: x\n\npass 2: y\n"
    wanted = text.replace("pass 1 under mss 500: a", f"{MARKED}fail 1 result under mss 500: a")
    wanted = wanted.replace("pass 2", f"{MARKED}pass 1")
    assert accepting.text(text, answer_as_pdregress) == wanted
    assert accepting.accepted == ["a.cases:5: taken: fail 1 result, was pass 1", "a.cases:9: taken: pass 1, was pass 2"]
    assert accepting.text(wanted, answer_as_pdregress) == wanted and len(accepting.accepted) == 2


def test_a_marked_row_fails_by_name_and_line_until_its_mark_is_taken_away(fixture: RowFixture) -> None:
    rows = "[a] scripts\npass 1: 0\n{}pass 1: 1\npass 1: 2\n"
    (name, fault), *others = fixture.faults(rows.format(MARKED), answer_as_pdregress).items()
    assert (name, others) == ("line-4", [])
    does = "work it out by hand, from docs/SENDER.md and docs/SCRIPTS.md, and take away line 3"
    assert fault.endswith(f"/a.cases:3: this answer was taken from the program: {does}")
    assert fixture.faults(rows.format(""), answer_as_pdregress) == {}


@pytest.mark.parametrize("text", [f"[a] scripts\npass 1: 0\n{MARKED}", f"{MARKED}[a] scripts\npass 1: 0\n"])
def test_a_mark_without_a_row_fails(text: str, fixture: RowFixture) -> None:
    assert len(fixture.faults(text, answer_as_pdregress)) == 1


def test_a_row_that_is_marked_and_turns_again_keeps_one_mark(accepting: AcceptFixture) -> None:
    text = f"[a] scripts\n{MARKED}fail 1 result: 0\n"
    assert accepting.text(text, answer_as_pdregress) == f"[a] scripts\n{MARKED}pass 1: 0\n"
    assert accepting.accepted == ["a.cases:3: taken: pass 1, was fail 1 result"]


STORIES = """[before] opening
> 0
[a] stories
# one
$ -v
after before
< a
># 1 3 b #
>> tests/pytest.ini
! c\\td
= 0

# two
!~ a:1:
= 1
"""
INI = Path(__file__).with_name("pytest.ini").read_text()


def test_a_story_keeps_the_lines_whose_output_is_the_same(accepting: AcceptFixture) -> None:
    one, two = ProgramOutput(f"0\nb 1\nz\nb 3\n{INI}y\n".encode(), b"", 1), ProgramOutput(
        b"e\n", b"a:2: fail\n  f\ng\xe4\\<\n", 1
    )

    def answer(call: ProgramCall) -> ProgramOutput:
        return one if call.arguments else two

    wanted = STORIES.replace("# one\n", f"# one\n{MARKED}").replace("># 1 3 b #\n", "> b 1\n> z\n> b 3\n")
    wanted = wanted.replace("pytest.ini\n! c\\td\n= 0", "pytest.ini\n> y\n= 1")
    wanted = wanted.replace("# two\n!~ a:1:\n", f"# two\n{MARKED}!~ a:2:\n! g\\xe4\\\\\\x3c\n> e\n")
    assert accepting.text(STORIES, answer) == wanted
    assert accepting.accepted == ["a.cases:6: taken", "a.cases:18: taken"]
    assert set(accepting.fixture.faults(wanted, answer)) == {"one", "two"}
    assert accepting.fixture.faults(wanted.replace(MARKED, ""), answer) == {}


@pytest.mark.parametrize(
    "answer, why",
    [
        (always_writes("1\n"), "'after before' differs now: change what it names"),
        (always_writes("0\n1"), "the output has no newline at its end"),
        (always_writes(status=-1), "the program came to no end, by this row or by one that is run with it"),
        (always_writes(status=3), "the program came to no end"),
    ],
)
def test_what_a_row_cannot_write_is_not_accepted(answer: FakeProgram, why: str, accepting: AcceptFixture) -> None:
    text = "[before] opening\n> 0\n[a] stories\n# one\nafter before\n= 0\n"
    assert accepting.text(text, answer) == text
    assert (accepting.refused, accepting.accepted) == ([f"a.cases:5: not taken: {why}"], [])


def test_a_row_of_which_a_part_has_no_answer_is_not_accepted(accepting: AcceptFixture) -> None:
    text = "[a] cuts\npass 1 | xy\n"
    assert accepting.text(text, lambda _: ProgramOutput(b"a1 pass 1\n", b"", 2)) == text
    unanswered = "the program came to no end, by this row or by one that is run with it"
    assert (accepting.accepted, accepting.refused) == ([], [f"a.cases:2: not taken: {unanswered}"])


@pytest.mark.parametrize(
    "before, after, lines",
    [
        ("pass 1", "pass 1", []),
        ("pass 1", "fail 1 result", [2]),
        ("fail 1 result", "pass 1", []),
        ("fail 1 result", "fail 1 result", []),
        ("fail 1 result", "fail 2 seq", [2]),
        ("pass 1", "", []),
    ],
)
def test_a_row_is_affected_that_is_answered_wrongly_and_otherwise_than_before(
    before: str, after: str, lines: list[int], fixture: RowFixture
) -> None:
    fixture.file.write_text("[a] scripts\npass 1: 0\n")
    outputs: list[list[Optional[ProgramOutput]]] = [
        [report_of_verdicts({"a1": it}) if it else None] for it in (before, after)
    ]
    assert [it.line for it in affected_rows(list(answered_tables_in(fixture.file)), *outputs)] == lines


def test_octets_that_do_not_print_are_written_as_escapes() -> None:
    assert escape_octets(b"\x1f ~\x7f\t\\") == "\\x1f ~\\x7f\\t\\\\"


def test_a_row_of_another_kind_is_changed_by_hand(accepting: AcceptFixture) -> None:
    text = "[a] cuts\npass 1 | x\n[b] refusals\n4 BadValue | < set mss 500\n"
    assert accepting.text(text, answer_as_pdregress) == text
    by_hand = "not taken: a row of this kind is changed by hand"
    assert (accepting.accepted, accepting.refused) == ([], [f"a.cases:2: {by_hand}", f"a.cases:4: {by_hand}"])


@pytest.mark.parametrize(
    "before, after",
    [
        ("> A\n< x\n< y\n< z\n", f"{MARKED}> B\n< x\n> A\n< y\n< z\n"),
        ("> A\n< y\n< x\n< z\n", f"> A\n< y\n{MARKED}> B\n< x\n> A\n< z\n"),
        ("> A\n# b\n< x\n< x x\n> A\n< z\n", f"# b\n{MARKED}> B\n< x\n< x x\n> A\n< z\n"),
        ("> A\n< y\n> B\n< x\n", "> A\n< y\n> B\n< x\n"),
    ],
)
def test_an_explanation_stands_before_its_scripts(before: str, after: str, accepting: AcceptFixture) -> None:
    def explain(call: ProgramCall) -> ProgramOutput:
        """Explains scripts with an x by B, and others by A."""
        blocks = ""
        for name, text in scripts_of(call).items():
            expected = "b" if b"x" in text else "a"
            blocks += (
                f'{{"name": "{name}", "verdict": "syntax", "line": 1, "column": null, "expected": ["{expected}"]}}\n'
            )
        return ProgramOutput(
            report_of_verdicts({name: "syntax 1" for name in scripts_of(call)}).output, blocks.encode(), 1
        )

    def table(rows: str) -> str:
        return "[a] explained\n" + rows.replace("> A", "> syntax 1 end: a").replace("> B", "> syntax 1 end: b")

    assert accepting.text(table(before), explain) == table(after)


def test_the_page_of_forms_has_each_kind() -> None:
    page = Path(__file__).with_name("FORMS.md").read_text()
    kinds = re.findall(r"^\| `([a-z ]+?)(?: of PROGRAM| \[of PROGRAM\])?` \|", page, re.MULTILINE)
    assert sorted(kinds) == sorted([*KINDS, "opening"])
