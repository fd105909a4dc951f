"""Scripts that are known not to pass: what a pdsuite.toml says of them, and what each form of a report makes of it."""

import json
import os
import signal
from collections.abc import Mapping
from pathlib import Path

import pytest
from junitparser import Error, Failure, JUnitXml, Skipped

from pdsuite.faults import Fault
from pdsuite.programs.verdict import Row, Verdict
from pdsuite.run.outcomes import CountedAs, ScriptOutcome, OutcomeTotals
from pdsuite.scripts.config import parse_layer
from pdsuite.scripts.expectation import Expectation, can_begin_failing_row
from pdsuite.watch.change_report import outcomes_with_changed_rows_passing_last
from tests.helpers import BLOCK_LINES, FAILS, PACKET, PASSES, Call, write
from tests.test_reports import NAMES, parse_tap
from tests.watch_process import Watching

SEQ = Row(Verdict.FAIL, 12, "seq")
# Rows with the words that fit each, and some that don't.
FITS: list[tuple[Row, list[str], list[str]]] = [
    (SEQ, ["fail", "fail 12", "fail 12 seq"], ["fail 1", "fail 2", "fail 12 ack", "syntax", "error", "fail 120"]),
    (Row(Verdict.SYNTAX, 1), ["syntax", "syntax 1"], ["syntax 10", "fail 1", "limit 1"]),
    (Row(Verdict.UNSUPPORTED, 40), ["unsupported", "unsupported 40"], ["unsupported 4", "fail 40 seq"]),
    (Row(Verdict.LIMIT, 3), ["limit", "limit 3"], ["limit 30", "syntax 3"]),
    (Row(Verdict.ERROR, word="Permission denied"), ["error", "error: Permission denied"], ["error: No", "fail"]),
    (Row(Verdict.PASS, 12), [], ["fail", "fail 12", "fail 12 seq", "error"]),
    (Row(Verdict.NOT_RUN), [], ["fail", "error"]),
]


@pytest.mark.parametrize(("row", "fitting", "others"), FITS, ids=[str(it[0]) for it in FITS])
def test_the_first_words_of_a_row_fit_it(row: Row, fitting: list[str], others: list[str]) -> None:
    assert all(can_begin_failing_row(words) for words in [*fitting, *others])
    assert [
        words
        for words in [*fitting, *others]
        if Expectation(words, "x").is_beginning_of_row(row.whole_text_without_name)
    ] == fitting


NO_ROWS = [
    "",
    "pass",
    "pass 9",
    "not run",
    "fail seq",
    "fail 0",
    "fail 012",
    "fail  12",
    "fail 12 seq x",
    "fail 12 Seq",
]
MORE = ["syntax 1 seq", "pending", "Fail", " fail", "fail ", "fail 12\n", "error:", "error: ", "fail ١", "fail 1234567"]


@pytest.mark.parametrize("words", [*NO_ROWS, *MORE])
def test_all_else_is_no_row_that_can_be_expected(words: str) -> None:
    assert not can_begin_failing_row(words)


TAKES = 'it takes a row that doesn\'t pass, as "fail 12 seq", or its first words'
TAKES_TEXT = "it takes a text that isn't empty"
WRONG = [
    ('["a.pkt"]\nexpect = "fail"', ":2", 'expect: needs a reason beside it (["a.pkt"])'),
    ('["a.pkt"]\nreason = "x"', ":2", 'reason: needs expect beside it (["a.pkt"])'),
    ('["a.pkt"]\nexpect = "pass 9"\nreason = "x"', ":2", f'expect: BadValue (["a.pkt"]): {TAKES}'),
    ('\n["a.pkt"]\nreason = "x"\nexpect = 12', ":4", f'expect: BadValue (["a.pkt"]): {TAKES}'),
    ('["a\\nb.pkt"]\nexpect = ""\nreason = "x"', "", f'expect: BadValue (["a\\x0ab.pkt"]): {TAKES}'),
    ('["a.pkt"]\nexpect = "fail"\nreason = ""', ":3", f'reason: BadValue (["a.pkt"]): {TAKES_TEXT}'),
    ('["a.pkt"]\nexpect = "fail"\nreason = " \\n"', ":3", f'reason: BadValue (["a.pkt"]): {TAKES_TEXT}'),
    ('["a.pkt"]\nexpect = "fail"\nreason = 75', ":3", f'reason: BadValue (["a.pkt"]): {TAKES_TEXT}'),
    ('expect = "fail"\nreason = "x"', ":1", 'expect: stands in no script\'s table, as ["NAME.pkt"] is'),
    ('reason = "x"', ":1", 'reason: stands in no script\'s table, as ["NAME.pkt"] is'),
]


@pytest.mark.parametrize(("text", "line", "why"), WRONG, ids=range(len(WRONG)))
def test_what_is_no_row_with_a_reason_is_a_fault_of_the_file(text: str, line: str, why: str) -> None:
    with pytest.raises(Fault) as fault:
        parse_layer("in/pdsuite.toml", text.encode())
    assert str(fault.value) == f"in/pdsuite.toml{line}: {why}"


def test_an_expectation_is_no_setting() -> None:
    layer = parse_layer("pdsuite.toml", b'["a.pkt"]\nexpect = "fail"\nmss = 1\nreason = "so"\n["b.pkt"]\nmss = 2\n')
    assert layer.expected == {"a.pkt": Expectation("fail", "so")}
    assert layer.tables == {"a.pkt": {"mss": 1}, "b.pkt": {"mss": 2}}


def outcome(row: Row, words: str | None = None) -> ScriptOutcome:
    return ScriptOutcome("a.pkt", (), row, expected=None if words is None else Expectation(words, "so"))


TALLIES = [
    (SEQ, None, Verdict.FAIL, False),
    (SEQ, "fail 12", CountedAs.KNOWN, True),
    (SEQ, "fail 13", CountedAs.UNEXPECTED, False),
    (Row(Verdict.PASS, 9), None, Verdict.PASS, True),
    (Row(Verdict.PASS, 9), "fail 12", CountedAs.UNEXPECTED, False),
    (Row(Verdict.UNSUPPORTED, 1), "unsupported", CountedAs.KNOWN, True),
    (Row(Verdict.ERROR, word="x"), "error", CountedAs.KNOWN, True),
    (Row(Verdict.ERROR, word="x"), "fail", Verdict.ERROR, False),
    (Row(Verdict.NOT_RUN), "fail", Verdict.NOT_RUN, False),
]


@pytest.mark.parametrize(("row", "words", "tally", "passes"), TALLIES, ids=range(len(TALLIES)))
def test_how_a_script_is_counted(row: Row, words: str | None, tally: Verdict | CountedAs, passes: bool) -> None:
    it = outcome(row, words)
    assert (it.counted_as, it.lets_run_pass) == (tally, passes)


def test_while_scripts_are_watched_known_rows_come_after_those_that_fail() -> None:
    known, failing = outcome(SEQ, "fail"), outcome(SEQ)
    assert outcomes_with_changed_rows_passing_last({}, {"a.pkt": known, "b.pkt": failing}) == [failing, known]


def test_known_rows_are_counted_apart_and_make_no_run_fail() -> None:
    known, passing = outcome(SEQ, "fail"), outcome(Row(Verdict.PASS, 1))
    other, mended = outcome(SEQ, "syntax"), outcome(Row(Verdict.PASS, 1), "fail")
    zeros = "syntax 0 unsupported 0 limit 0 error 0 not run 0"
    totals = OutcomeTotals.of_outcomes([known, known, passing, outcome(SEQ)])
    assert (str(totals), totals.pass_fail_or_error_exit_status()) == (f"total 4 pass 1 fail 1 {zeros} known 2", 1)
    assert [
        OutcomeTotals.of_outcomes(it).pass_fail_or_error_exit_status()
        for it in ([known, passing], [known, other], [known, mended])
    ] == [
        0,
        1,
        1,
    ]
    assert (
        str(OutcomeTotals.of_outcomes([known, other, mended])) == f"total 3 pass 0 fail 0 {zeros} known 1 unexpected 2"
    )
    assert OutcomeTotals.of_outcomes([known, other]).nonzero_counts_text() == "total 2 known 1 unexpected 1"
    assert str(OutcomeTotals.of_outcomes([passing])) == f"total 1 pass 1 fail 0 {zeros}"


# A script's first line, the row that is expected, and what is printed of it with -v.
SCRIPTS: Mapping[str, tuple[bytes, str | None, str]] = {
    "a other": (b"row fail 2 ack\n\n", "fail 1 seq", ':2: fail ack, though "fail 1 seq" is expected (so #1)'),
    "b known": (b"row fail 1 seq\n" + PACKET, "fail 1 seq", ":1: known: fail seq (so #1)"),
    "c syntax": (b"row syntax 1\n", "syntax", ":1: known: syntax (so #1)"),
    "d unsupported": (b"row unsupported 1\n", "unsupported 1", ":1: known: unsupported (so #1)"),
    "e limit": (b"row limit 1\n", "fail", ':1: limit, though "fail" is expected (so #1)'),
    "f error": (b"crash\n", "error", ": known: error: pdregress was ended by SIGSEGV (so #1)"),
    "g mended": (b"row pass 9\n", "fail 12 seq", ': passes, though "fail 12 seq" is expected (so #1)'),
    "h passes": (b"row pass 9\n", None, ": pass 9"),
    "i fails": (b"row fail 1 seq\n", None, ":1: fail seq"),
}
LINES = [f"{name}.pkt{message}" for name, (_, _, message) in SCRIPTS.items()]
KNOWN = ["b known", "c syntax", "d unsupported", "f error"]


def make(folder: Path) -> None:
    """A script for each row of the table."""
    toml = "root = true\n"
    for name, (text, words, _) in SCRIPTS.items():
        write(folder, **{name: text})
        if words is not None:
            toml += f'["{name}.pkt"]\nexpect = "{words}"\nreason = "so #1"\n'
    (folder / "pdsuite.toml").write_text(toml)


def without_below(out: str) -> list[str]:
    """The lines of rows, without what they mean, and the totals without the seconds."""
    lines = [line.removesuffix(": so it is") for line in out.splitlines() if not line.startswith("  ")]
    return [*lines[:-1], lines[-1].split(" in ")[0]]


TOTALS = "total 9 pass 1 fail 1 syntax 0 unsupported 0 limit 0 error 0 not run 0 known 4 unexpected 3"


def test_people_see_known_rows_with_v_alone(fake_program: Path, tmp_path: Path, call: Call) -> None:
    make(tmp_path)
    called = call(fake_program, "run", "-v", ".")
    assert (without_below(called.out), called.status) == ([*LINES, TOTALS], 1)
    lines = called.out.splitlines()
    assert not any(lines[place + 1].startswith("  ") for place, it in enumerate(lines) if ": known: " in it)
    shown = [it for it in LINES if ": known: " not in it and not it.endswith(": pass 9")]
    called = call(fake_program, "run", ".")
    assert (without_below(called.out), called.status) == ([*shown, TOTALS], 1)


def test_where_all_others_pass_the_run_passes(fake_program: Path, tmp_path: Path, call: Call) -> None:
    make(tmp_path)
    write(tmp_path, **{it: b"row pass 1\n" for it in ("a other", "e limit", "g mended", "i fails")})
    text = (tmp_path / "pdsuite.toml").read_text()
    for name in ("a other", "e limit", "g mended"):
        text = text.replace(f'["{name}.pkt"]\nexpect = "{SCRIPTS[name][1]}"\nreason = "so #1"\n', "")
    (tmp_path / "pdsuite.toml").write_text(text)
    called = call(fake_program, "run", ".")
    assert (called.status, called.rows) == (0, [])
    assert called.totals == {"pass": 5, "known": 4}


def test_what_is_known_ends_no_run_that_is_to_fail_fast(fake_program: Path, tmp_path: Path, call: Call) -> None:
    write(tmp_path, **{f"s{number:03}": b"row fail 1 seq\n" if number == 0 else PASSES for number in range(200)})
    toml = tmp_path / "pdsuite.toml"
    toml.write_text('root = true\n["s000.pkt"]\nexpect = "fail"\nreason = "x"\n')
    assert call(fake_program, "run", "--fail-fast", ".").totals == {"pass": 199, "known": 1}
    toml.write_text(
        'root = true\n["s001.pkt"]\nexpect = "fail"\nreason = "x"\n["s000.pkt"]\nexpect = "fail 1"\nreason = "x"\n'
    )
    assert call(fake_program, "run", "--fail-fast", ".").totals == {
        "pass": 62,
        "known": 1,
        "unexpected": 1,
        "not run": 136,
    }


def test_of_a_known_failure_people_read_a_line(fake_program: Path, tmp_path: Path, call: Call) -> None:
    write(tmp_path, a=b"row fail 1 seq\n" + PACKET)
    (tmp_path / "pdsuite.toml").write_text('root = true\n["a.pkt"]\nexpect = "fail"\nreason = "x"\n')
    assert call(fake_program, "run", "-v", ".").out.splitlines()[:-1] == ["a.pkt:1: known: fail seq (x)"]
    for words in (["--tap"], ["--github"], ["--json"]):
        assert BLOCK_LINES[2] in call(fake_program, "run", *words, ".").out


def test_tap_has_known_rows_still_to_do(fake_program: Path, tmp_path: Path, call: Call) -> None:
    make(tmp_path)
    called = call(fake_program, "run", "--tap", ".")
    tests, last = parse_tap(tmp_path, called.out)
    assert [(it[2], it[3]) for it in tests] == [(f"{name}.pkt", "TODO" if name in KNOWN else "") for name in SCRIPTS]
    assert [it[0] for it in tests] == ["1" if name == "h passes" else "0" for name in SCRIPTS]
    assert last == "13 9 0"
    lines = called.out.splitlines()
    place = lines.index("not ok 2 b known.pkt # TODO so #1")
    reported = [f"#   {line}" for line in BLOCK_LINES]
    assert lines[place - 4 : place] == ["# b known.pkt:1: known: fail seq (so #1): so it is", *reported]
    place = lines.index("not ok 7 g mended.pkt")
    assert lines[place - 1] == f"# {LINES[6]}"


def test_junit_skips_known_rows_with_the_reason(fake_program: Path, tmp_path: Path, call: Call) -> None:
    make(tmp_path)
    call(fake_program, "run", "--junit", "out.xml", ".")
    (suite,) = JUnitXml.fromfile(str(tmp_path / "out.xml"))
    assert (suite.tests, suite.failures, suite.errors, suite.skipped) == (9, 3, 1, 4)
    results = {case.name.removesuffix(".pkt"): case.result[0] for case in suite if case.result}
    kinds = {"a other": Failure, "e limit": Error, "g mended": Failure, "i fails": Failure}
    assert {name: type(it) for name, it in results.items()} == {**dict.fromkeys(KNOWN, Skipped), **kinds}
    for name in KNOWN:
        assert (results[name].message, results[name].type) == ("so #1", "known")
    assert results["b known"].text == "b known.pkt:1: known: fail seq (so #1): so it is" + "".join(
        f"\n  {it}" for it in BLOCK_LINES
    )
    assert (results["g mended"].message, results["g mended"].type) == (LINES[6], "unexpected")
    assert results["a other"].message.startswith(LINES[0])


def test_json_has_what_is_expected(fake_program: Path, tmp_path: Path, call: Call) -> None:
    make(tmp_path)
    report = json.loads(call(fake_program, "run", "--json", ".").out)
    for script in report["scripts"]:
        name = script["path"].removesuffix(".pkt")
        words = SCRIPTS[name][1]
        expected = None if words is None else {"row": words, "reason": "so #1", "known": name in KNOWN}
        assert script.get("expected") == expected
    assert [it["verdict"] for it in report["scripts"][:3]] == ["fail", "fail", "syntax"]
    assert {key: it for key, it in report["total"].items() if it} == {
        "scripts": 9,
        "pass": 1,
        "fail": 1,
        "known": 4,
        "unexpected": 3,
    }


def test_github_has_a_notice_of_known_rows(fake_program: Path, tmp_path: Path, call: Call) -> None:
    make(tmp_path)
    lines = call(
        fake_program, "run", "--github", ".", GITHUB_STEP_SUMMARY=str(tmp_path / "summary.md")
    ).out.splitlines()
    notices = [it for it in lines if it.startswith("::notice ")]
    errors = [it for it in lines if it.startswith("::error ")]
    assert [it.split("::")[2].split(": known")[0] for it in notices] == [
        "b known.pkt:1",
        "c syntax.pkt:1",
        "d unsupported.pkt:1",
        "f error.pkt",
    ]
    first = "::notice file=b known.pkt,line=1,title=known%3A fail seq::"
    reported = "".join(f"%0A  {line}" for line in BLOCK_LINES)
    assert notices[0] == f"{first}b known.pkt:1: known: fail seq (so #1): so it is{reported}"
    assert errors[2] == f"::error file=g mended.pkt,title=passes%2C though it is expected not to::{LINES[6]}"
    assert [it.split("::")[2].split(".pkt")[0] for it in errors] == ["a other", "e limit", "g mended", "i fails"]
    summary = (tmp_path / "summary.md").read_text().splitlines()
    assert summary[0] == "### pdsuite: 9 scripts: 1 pass, 1 fail, 4 known, 3 unexpected"
    assert [it.split(" | ")[0].replace("\\", "") for it in summary[4:]] == [
        "| a other.pkt",
        "| e limit.pkt",
        "| g mended.pkt",
        "| i fails.pkt",
    ]


def test_the_page_filters_by_what_is_known(fake_program: Path, tmp_path: Path, call: Call) -> None:
    make(tmp_path)
    call(fake_program, "run", "--html", "page", ".")
    table = (tmp_path / "page/index.html").read_text()
    assert '<input type="checkbox" name="verdict" value="known"> known <span class="count">4</span>' in table
    assert '<input type="checkbox" name="verdict" value="unexpected"> unexpected <span class="count">3</span>' in table
    assert (table.count('data-verdict="known"'), table.count('data-verdict="unexpected"')) == (4, 3)
    order = [
        line.split('html">')[1].split(".pkt")[0] for line in table.splitlines() if line.startswith('<th scope="row">')
    ]
    assert order == ["a other", "e limit", "g mended", "i fails", *KNOWN, "h passes"]
    assert '<td class="verdict known">known: fail seq</td>' in table
    assert '<td class="why">so #1; so it is</td>' in table
    (page,) = (tmp_path / "page/scripts").glob("g_mended-*.html")
    assert '<p class="known">&#34;fail 12 seq&#34; is expected (so #1)</p>' in page.read_text()


def test_while_scripts_are_watched_it_is_told_when_one_passes(fake_program: Path, tmp_path: Path) -> None:
    write(tmp_path, a=b"row fail 1 seq\n", b=b"row pass 2\n")
    toml = tmp_path / "pdsuite.toml"
    toml.write_text('root = true\n["a.pkt"]\nexpect = "fail 1 seq"\nreason = "so #1"\n')
    with Watching(tmp_path, fake_program, ".") as watching:
        assert without_below(watching.out)[0].startswith("total 2 pass 1 fail 0 ")
        write(tmp_path, a=b"row pass 3\n")
        watching.await_out('a.pkt: passes, though "fail 1 seq" is expected (so #1)\ntotal 2 pass 1 ')
        write(tmp_path, a=b"row fail 2 seq\n\n")
        watching.await_out('a.pkt:2: fail seq, though "fail 1 seq" is expected (so #1)\n')
        toml.write_text('root = true\n["a.pkt"]\nexpect = "fail 2"\nreason = "so #2"\n')
        watching.await_out("a.pkt:2: known: fail seq (so #2)\n")
        toml.write_text("root = true\n")
        watching.await_out("a.pkt:2: fail seq: so it is\n")
        toml.write_text('root = true\n["a.pkt"]\nexpect = "fail 2"\nreason = "so #3"\n')
        watching.await_out("a.pkt:2: known: fail seq (so #3)\n")
        toml.write_text('root = true\n["a.pkt"]\nexpect = "fail"\nreason = "so #4"\n')
        watching.await_out("a.pkt:2: known: fail seq (so #4)\n")
        write(tmp_path, b=b"row pass 5\n")
        watching.await_out("b.pkt: pass 5\n")
        assert watching.out.count("(so #4)") == 1
        assert watching.ends(signal.SIGINT).status == 0


def test_a_row_that_is_expected_of_no_script_is_a_fault_of_the_file(
    fake_program: Path, tmp_path: Path, call: Call
) -> None:
    write(tmp_path, known=b"row fail 1 seq\n")
    (tmp_path / "pdsuite.toml").write_text('root = true\n["knwon.pkt"]\nexpect = "fail"\nreason = "x"\n')
    message = 'pdsuite.toml:2: ["knwon.pkt"]: no script of this name is beside the file; the nearest is known.pkt; '
    for command in ("run", "list"):
        called = call(fake_program, command, ".")
        assert (called.status, called.out) == (2, "")
        assert called.err == f"{message}`pdsuite expect --prune` takes the table away\n"


def test_names_of_any_octets_can_be_known(fake_program: Path, tmp_path: Path, call: Call) -> None:
    toml = "root = true\n"
    names = [name for name in NAMES if name != b"\xff"]
    for name in names:
        (tmp_path / os.fsdecode(name + b".pkt")).write_bytes(b"row fail 1 seq\n")
        key = json.dumps(name.decode() + ".pkt", ensure_ascii=False)
        toml += f'[{key}]\nexpect = "fail 1"\nreason = "a\\nb \\u001b[2J # <x> | `"\n'
    (tmp_path / "pdsuite.toml").write_text(toml)
    for words in (["-v"], ["--tap"], ["--json"], ["--github"], ["--html", "page"], ["--junit", "out.xml"]):
        called = call(fake_program, "run", *words, ".")
        assert (called.status, called.err) == (0, "")
        assert all(line.isprintable() for line in called.out.split("\n"))
    tests, last = parse_tap(tmp_path, call(fake_program, "run", "--tap", ".").out)
    assert [it[3] for it in tests] == ["TODO"] * len(names) and last == f"13 {len(names)} 0"
    (suite,) = JUnitXml.fromfile(str(tmp_path / "out.xml"))
    assert {result.message for case in suite for result in case.result} == {r"a\x0ab \x1b[2J # <x> | `"}


def test_known_rows_are_no_difference_that_is_worse(fake_program: Path, tmp_path: Path, call: Call) -> None:
    suite = tmp_path / "suite"
    write(suite, a=b"row pass 9\n", b=b"row fail 2 seq\n\n")
    (tmp_path / "old.json").write_text(call(fake_program, "run", "--json", "suite").out)
    write(suite, a=b"row fail 1 seq\n", b=b"row fail 1 seq\n", c=b"row fail 1 seq\n")
    tables = "".join(f'["{name}.pkt"]\nexpect = "fail 1"\nreason = "x"\n' for name in "abc")
    (suite / "pdsuite.toml").write_text(f"root = true\n{tables}")
    (tmp_path / "new.json").write_text(call(fake_program, "run", "--json", "suite").out)
    called = call(None, "diff", "old.json", "new.json")
    assert called.out.splitlines()[:3] == [
        "suite/a.pkt:1: passes no more: known: fail seq, was pass 9",
        "suite/b.pkt:1: fails otherwise: known: fail seq, was fail 2 seq",
        "suite/c.pkt:1: new: known: fail seq",
    ]
    assert called.status == 0


def test_what_made_the_run_fail_is_run_again_and_what_is_known_is_not(
    fake_program: Path, tmp_path: Path, call: Call
) -> None:
    make(tmp_path)
    call(fake_program, "run", ".")
    called = call(fake_program, "run", "-v", "--last-failed", ".")
    assert without_below(called.out)[:-1] == [LINES[place] for place in (0, 4, 6, 8)]


def test_by_the_program_a_row_is_known_as_its_report_has_it(programs: Path, tmp_path: Path, call: Call) -> None:
    write(tmp_path, a=FAILS, b=PASSES, c=b"?")
    tables = '["a.pkt"]\nexpect = "fail 1 result"\nreason = "x"\n["c.pkt"]\nexpect = "syntax 1"\nreason = "y"\n'
    (tmp_path / "pdsuite.toml").write_text(f"root = true\n{tables}")
    called = call(programs, "run", ".")
    assert (called.status, called.rows, called.totals) == (0, [], {"pass": 1, "known": 2})
