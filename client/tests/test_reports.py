"""The forms of a report, as parsers read them that aren't ours."""

import json
import os
import re
import subprocess
import time
from datetime import UTC, datetime, timedelta
from pathlib import Path
from xml.etree import ElementTree

import pytest
from junitparser import Error, Failure, JUnitXml, Skipped

from pdsuite.programs.verdict import Row, Verdict
from pdsuite.reports.junit import junit_xml
from pdsuite.reports.last_run import save_report_or_note_failure
from pdsuite.run.outcomes import ScriptOutcome
from tests.helpers import TOP, Call, write

EXAMPLES = TOP / "examples/scripts"
PATH = 'a"<b>/c&d.pkt'
COUNTS = {"errors": "0", "skipped": "0"}
# Seconds of the processor: ten times what 20,000 scripts take, and far less than looking for each among all.
SLOW = 5
# Of each line that Perl's parser takes for a test: whether it passed, its number, its name and its directive.
PARSE_TAP = """
use TAP::Parser;
my $parser = TAP::Parser->new({ source => $ARGV[0] });
while (my $it = $parser->next) {
    next unless $it->is_test;
    print join("\\t", $it->is_actual_ok ? 1 : 0, $it->number, $it->description, $it->directive), "\\n";
}
print join(" ", $parser->version, $parser->tests_planned, scalar $parser->parse_errors), "\\n";
"""
ROWS = {
    "a pass": b"row pass 9\n",
    "b fail": b"row fail 1 seq\n",
    "c syntax": b"row syntax 1\n",
    "d unsupported": b"row unsupported 1\n",
    "e limit": b"row limit 1\n",
    "f error": b"crash\n",
}
NAMES = [
    b"# SKIP",
    b"# TODO x",
    b"a # SKIP b",
    b"a\\# SKIP",
    b"a\nok 7",
    b"\xff",
    b'<&"]]>',
    b"a\x1b[2J",
    "grün".encode(),
]
SHOWN = ["# SKIP", "# TODO x", "a # SKIP b", r"a\\# SKIP", r"a\x0aok 7", r"\xff", '<&"]]>', r"a\x1b[2J", "grün"]


def make_rows(folder: Path) -> None:
    """A script of each verdict."""
    for name, text in ROWS.items():
        write(folder, **{name: text})


def make_names(folder: Path) -> list[str]:
    """A failing script for each hard name; how these are shown, in order."""
    for name in NAMES:
        (folder / os.fsdecode(name + b".pkt")).write_bytes(b"row fail 1 seq\n")
    return [f"{shown}.pkt" for _, shown in sorted(zip(NAMES, SHOWN), key=lambda it: it[0] + b".pkt")]


def parse_tap(folder: Path, text: str) -> tuple[list[list[str]], str]:
    """The tests that Perl reads, and the version, the plan and the number of errors."""
    (folder / "out.tap").write_text(text)
    command = ["perl", "-e", PARSE_TAP, str(folder / "out.tap")]
    *tests, last = subprocess.run(command, capture_output=True, text=True, check=True).stdout.splitlines()
    return [it.split("\t") for it in tests], last


def test_tap_says_of_each_script_whether_it_passes(fake_program: Path, tmp_path: Path, call: Call) -> None:
    make_rows(tmp_path)
    called = call(fake_program, "run", "--tap", ".")
    tests, last = parse_tap(tmp_path, called.out)
    assert [it[0] for it in tests] == ["1", "0", "0", "0", "0", "0"]
    assert [it[2].removeprefix("- ") for it in tests] == [f"{name}.pkt" for name in ROWS]
    assert (last, called.status) == ("13 6 0", 2)
    assert called.out.splitlines()[2:6] == [
        "ok 1 a pass.pkt",
        "# b fail.pkt:1: fail seq",
        "#   row fail 1 seq",
        "not ok 2 b fail.pkt",
    ]


def test_no_name_makes_a_directive_or_a_line_of_tap(fake_program: Path, tmp_path: Path, call: Call) -> None:
    names = make_names(tmp_path)
    tests, last = parse_tap(tmp_path, call(fake_program, "run", "--tap", ".").out)
    assert [(it[0], it[3]) for it in tests] == [("0", "")] * len(names)
    assert [it[2] for it in tests] == [name.replace("#", r"\x23") for name in names]
    assert last == f"13 {len(names)} 0"


def test_scripts_that_are_not_run_are_not_ok(fake_program: Path, tmp_path: Path, call: Call) -> None:
    for number in range(70):
        write(tmp_path, **{f"s{number:02}": b"row fail 1 seq\n" if number == 0 else b"\n"})
    tests, last = parse_tap(tmp_path, call(fake_program, "run", "--tap", "--fail-fast", ".").out)
    assert "".join(it[0] for it in tests) == "0" + "1" * 63 + "0" * 6
    assert last == "13 70 0"


def test_junit_tells_failures_from_errors_and_skips_nothing(fake_program: Path, tmp_path: Path, call: Call) -> None:
    make_rows(tmp_path)
    assert call(fake_program, "run", "--junit", "out.xml", ".").totals["error"] == 1
    (suite,) = JUnitXml.fromfile(str(tmp_path / "out.xml"))
    assert suite.time > 0
    assert (suite.tests, suite.failures, suite.errors, suite.skipped) == (6, 1, 4, 0)
    results = {case.name: case.result for case in suite}
    assert list(results) == [f"{name}.pkt" for name in ROWS]
    assert not results["a pass.pkt"]
    kinds = {name: type(each[0]) for name, each in results.items() if each}
    assert kinds == {f"{it}.pkt": Failure if it == "b fail" else Error for it in list(ROWS)[1:]}
    assert not any(kind is Skipped for kind in kinds.values())
    failure = results["b fail.pkt"][0]
    assert (failure.message, failure.type) == ("b fail.pkt:1: fail seq", "fail")
    assert failure.text == "b fail.pkt:1: fail seq\n  row fail 1 seq"


def test_junit_is_xml_whatever_the_names(fake_program: Path, tmp_path: Path, call: Call) -> None:
    names = make_names(tmp_path)
    call(fake_program, "run", "--junit", "out.xml", ".")
    root = ElementTree.parse(tmp_path / "out.xml").getroot()
    assert [case.get("name") for case in root.iter("testcase")] == names


def test_json_is_one_object(fake_program: Path, tmp_path: Path, call: Call) -> None:
    make_rows(tmp_path)
    (tmp_path / "pdsuite.toml").write_text('root = true\n["b fail.pkt"]\nmss = 1000\n')
    report = json.loads(call(fake_program, "run", "--json", ".").out)
    scripts = {it["path"]: it for it in report["scripts"]}
    assert [it["verdict"] for it in report["scripts"]] == [name[2:] for name in ROWS]
    assert scripts["a pass.pkt"]["events"] == 9
    assert scripts["b fail.pkt"] == {
        "path": "b fail.pkt",
        "verdict": "fail",
        "line": 1,
        "kind": "seq",
        "below": ["row fail 1 seq"],
        "settings": {"mss": 1000},
    }
    assert scripts["f error.pkt"]["reason"] == "pdregress was ended by SIGSEGV"
    assert (report["total"]["scripts"], report["total"]["fail"], report["total"]["not run"]) == (6, 1, 0)


def test_json_holds_names_of_any_octets(fake_program: Path, tmp_path: Path, call: Call) -> None:
    names = make_names(tmp_path)
    report = json.loads(call(fake_program, "run", "--json", ".").out)
    assert [it["path"] for it in report["scripts"]] == names


def test_github_has_an_annotation_for_each_that_does_not_pass(fake_program: Path, tmp_path: Path, call: Call) -> None:
    write(tmp_path / "a,b:c", **{"50%": b"row fail 1 seq 100%\n"})
    (tmp_path / "a,b:c/50%.pkt").write_bytes(b"row fail 1 seq\n")
    write(tmp_path, good=b"\n")
    called = call(fake_program, "run", "--github", ".")
    assert called.out.splitlines()[0] == (
        "::error file=a%2Cb%3Ac/50%25.pkt,line=1,title=fail seq::a,b:c/50%25.pkt:1: fail seq%0A  row fail 1 seq"
    )
    assert called.totals == {"pass": 1, "fail": 1}


def test_no_output_holds_a_control_character(fake_program: Path, tmp_path: Path, call: Call) -> None:
    make_names(tmp_path)
    write(tmp_path, zz=b"row fail 1 seq \x1b[31m\x07\xff\xc2\x9b\n")
    for words in (["-v"], ["--tap"], ["--json"], ["--github"]):
        out = call(fake_program, "run", *words, ".").out
        assert all(line.isprintable() for line in out.split("\n"))


def test_scripts_that_are_not_run_are_errors_of_junit(fake_program: Path, tmp_path: Path, call: Call) -> None:
    for number in range(70):
        write(tmp_path, **{f"s{number:02}": b"row fail 1 seq\n" if number == 0 else b"\n"})
    call(fake_program, "run", "--fail-fast", "--junit", "out.xml", ".")
    (suite,) = JUnitXml.fromfile(str(tmp_path / "out.xml"))
    assert (suite.tests, suite.failures, suite.errors, suite.skipped) == (70, 1, 6, 0)


MISSING = b"row fail 7 missing\nscript packet: x\nreason: all was sent\nstate: y\n"


def test_junit_says_where_and_why_of_each_case(fake_program: Path, tmp_path: Path, call: Call) -> None:
    write(tmp_path / "t", a=MISSING, b=b"row unsupported 3\nrule: a command\n", c=b"row fail 2 time\nearly by: 1\n")
    write(tmp_path / "t/in", d=b"row syntax 4\nreason: x\n", e=b"row pass 5\n", f=b"crash\n")
    write(tmp_path, g=b"row limit 1\n")
    begin = datetime.now(UTC).replace(microsecond=0)
    call(fake_program, "run", "--junit", "out.xml", "t", "g.pkt")
    suites = list(JUnitXml.fromfile(str(tmp_path / "out.xml")))
    assert [(it.name, it.tests) for it in suites] == [(".", 1), ("t", 3), ("t/in", 3)]
    assert all(begin <= datetime.fromisoformat(f"{it.timestamp}+00:00") <= datetime.now(UTC) for it in suites)
    assert all(re.fullmatch(r"\d{4}-\d\d-\d\dT\d\d:\d\d:\d\d", it.timestamp) for it in suites)
    cases = {it.get("name"): it for it in ElementTree.parse(tmp_path / "out.xml").getroot().iter("testcase")}
    assert {name: (it.get("file"), it.get("line")) for name, it in cases.items()} == {
        "g.pkt": ("g.pkt", "1"),
        "t/a.pkt": ("t/a.pkt", "7"),
        "t/b.pkt": ("t/b.pkt", "3"),
        "t/c.pkt": ("t/c.pkt", "2"),
        "t/in/d.pkt": ("t/in/d.pkt", "4"),
        "t/in/e.pkt": ("t/in/e.pkt", "1"),
        "t/in/f.pkt": ("t/in/f.pkt", "1"),
    }
    assert [each[0].get("message") for each in cases.values() if len(each)] == [
        "g.pkt:1: limit",
        "t/a.pkt:7: fail missing: all was sent",
        "t/b.pkt:3: unsupported: so it is: a command",
        "t/c.pkt:2: fail time: so it is",
        "t/in/d.pkt:4: syntax: so it is",
        "t/in/f.pkt: error: pdregress was ended by SIGSEGV",
    ]


def test_junit_is_escaped_as_xml_asks() -> None:
    outcomes = [
        ScriptOutcome('a"<b>/c&d.pkt', (), Row(Verdict.FAIL, 2, "seq"), None, 'is "so" & <so>', ("reason: a\rb\t> c",)),
        ScriptOutcome("e.pkt", (), Row(Verdict.PASS, 0)),
        ScriptOutcome("f.pkt", (), Row(Verdict.PASS, 0), is_strict=True),
    ]
    root = ElementTree.fromstring(junit_xml(outcomes, 1.5, is_unproved=True))
    assert root.attrib == {"name": "pdsuite", **COUNTS, "tests": "3", "failures": "2", "time": "1.5"}
    first, second = root
    (case, mark), (failure,) = first, first[0]
    assert case.attrib == {"name": PATH, "classname": 'a"<b>', "time": "0.0", "file": PATH, "line": "2"}
    assert failure.attrib == {"message": f"{PATH}:2: fail seq: a\rb\t> c", "type": "fail"}
    assert failure.text == f'{PATH}:2: fail seq: is "so" & <so>\n  reason: a\rb\t> c'
    assert [it.attrib for it in mark] == [{"name": "UNPROVED", "value": "true"}]
    assert second.attrib["name"] == "." and [it.tag for it in second.iter()][2:5] == [
        "system-err",
        "testcase",
        "failure",
    ]


def test_junit_names_the_line_before_where_that_one_lacks_something() -> None:
    broken = ScriptOutcome("a.pkt", (), Row(Verdict.SYNTAX, 3), explanation={"text_line": 2})
    root = ElementTree.fromstring(junit_xml([broken, ScriptOutcome("b.pkt", (), Row(Verdict.PASS, 1))], 1.0))
    assert [it.get("line") for it in root.iter("testcase")] == ["2", "1"]


def test_the_suites_of_junit_begin_so_many_seconds_ago() -> None:
    begin = datetime.now(UTC).replace(microsecond=0) - timedelta(hours=1)
    root = ElementTree.fromstring(junit_xml([ScriptOutcome("a.pkt", (), Row(Verdict.PASS, 1))], 3_600.0))
    (timestamp,) = (it.get("timestamp") for it in root.iter("testsuite"))
    assert begin <= datetime.fromisoformat(f"{timestamp}+00:00") <= datetime.now(UTC) - timedelta(hours=1)


def test_junit_of_many_scripts_costs_little_when_a_signal_ends_the_run() -> None:
    reported = ("script packet: x", "reason: y", "state: " + "z" * 200)
    rows = [(Row(Verdict.FAIL, 10, "missing"), reported), (Row(Verdict.PASS, 9), ()), (Row(Verdict.NOT_RUN), ())]
    outcomes = [
        ScriptOutcome(f"d{number // 500}/s{number}.pkt", (), *_at(rows[number % 3])) for number in range(20_000)
    ]
    begin = time.process_time()
    octets = junit_xml(outcomes, 1.0)
    assert time.process_time() - begin < SLOW and octets.count(b"<testcase ") == 20_000


def _at(row: tuple[Row, tuple[str, ...]]) -> tuple[Row, None, str, tuple[str, ...]]:
    return row[0], None, "", row[1]


def test_the_suites_of_junit_share_the_time_of_the_run(fake_program: Path, tmp_path: Path, call: Call) -> None:
    write(tmp_path / "a", **{f"s{number}": b"\n" for number in range(30)})
    write(tmp_path / "b", a=b"\n")
    call(fake_program, "run", "--junit", "out.xml", ".")
    report = JUnitXml.fromfile(str(tmp_path / "out.xml"))
    first, second = report
    assert report.time > 0 and abs(first.time + second.time - report.time) < 0.002
    assert first.time > second.time > 0


def files_of(out: str) -> list[str]:
    """The files that annotations are of."""
    return [it[1] for it in re.finditer(r"^::[a-z]+ file=([^,]*),", out, re.M)]


@pytest.mark.parametrize(("words", "level"), [((), "warning"), (("--strict",), "error")])
def test_a_warning_of_github_is_an_error_where_it_is_strict(
    words: tuple[str, ...], level: str, fake_program: Path, tmp_path: Path, call: Call
) -> None:
    write(tmp_path, a=b"row pass 0")
    (annotation, *_) = call(fake_program, "run", "--github", *words, ".").out.splitlines()
    assert annotation.startswith(f"::{level} file=")


def test_github_gets_paths_from_the_root_of_the_repository(fake_program: Path, tmp_path: Path, call: Call) -> None:
    write(tmp_path / "in/er", a=b"row fail 1 seq\n")
    whole = str(tmp_path / "in/er")
    assert files_of(call(fake_program, "run", "--github", whole, "in").out) == [f"{whole}/a.pkt"]
    named = call(fake_program, "run", "--github", whole, GITHUB_WORKSPACE=str(tmp_path / "in"))
    assert files_of(named.out) == ["er/a.pkt"]
    elsewhere = call(fake_program, "run", "--github", "in", GITHUB_WORKSPACE=str(tmp_path / "elsewhere"))
    assert files_of(elsewhere.out) == ["in/er/a.pkt"]
    (tmp_path / "in/.git").touch()  # as in a worktree
    for words in (["in"], [whole], ["in/er/../er"]):
        assert files_of(call(fake_program, "run", "--github", *words, GITHUB_WORKSPACE="/nowhere").out) == ["er/a.pkt"]


def test_github_gets_ten_annotations_of_a_level_and_the_rows_of_all(
    fake_program: Path, tmp_path: Path, call: Call
) -> None:
    write(tmp_path, **{f"s{number:02}": MISSING for number in range(13)})
    write(tmp_path, **{f"w{number:02}": b"row pass 0\n" for number in range(11)})
    write(tmp_path, **{"z##[error] a": MISSING})
    *lines, totals = call(fake_program, "run", "--github", ".").out.splitlines()
    assert sum(it.startswith("::error ") for it in lines) == sum(it.startswith("::warning ") for it in lines) == 10
    assert [it for it in lines if not it.startswith("::")] == [
        "- s10.pkt:7: fail missing: so it is",
        "- s11.pkt:7: fail missing: so it is",
        "- s12.pkt:7: fail missing: so it is",
        "- w10.pkt: passes, but has no event",
        r"- z\x23\x23[error] a.pkt:7: fail missing: so it is",
        "and 4 more errors",
        "and 1 more warning",
    ]
    assert totals.startswith("total 25 pass 11 fail 14 ")


def test_github_gets_a_summary_after_those_of_others(fake_program: Path, tmp_path: Path, call: Call) -> None:
    write(tmp_path, **{"a|b*c_`<d>": MISSING, "e": b"row pass 0\n", "f": b"crash\n", "g": b"row pass 3\n"})
    summary = tmp_path / "summary.md"
    summary.write_text("# Others\n")
    call(fake_program, "run", ".", GITHUB_STEP_SUMMARY=str(summary))
    assert summary.read_text() == "# Others\n"
    assert call(fake_program, "run", "--github", ".", GITHUB_STEP_SUMMARY=str(summary)).status == 2
    assert summary.read_text().splitlines() == [
        "# Others",
        "### pdsuite: 4 scripts: 2 pass, 1 fail, 1 error; warnings: 1",
        "",
        "| script | line | row | reason |",
        "|---|---|---|---|",
        r"| a\|b\*c\_\`\<d\>\.pkt | 7 | fail missing | all was sent |",
        r"| e\.pkt |  | pass 0 | passes\, but has no event |",
        r"| f\.pkt |  | error | pdregress was ended by SIGSEGV |",
    ]


def test_a_summary_is_cut_where_github_takes_no_more(fake_program: Path, tmp_path: Path, call: Call) -> None:
    folder = tmp_path / ("\u00fc" * 125) / ("y" * 250) / ("\u00e4" * 125)
    write(folder, **{f"s{number:04}": b"row fail 1 seq\nreason: " + b"x" * 180 + b"\n" for number in range(1_200)})
    summary = tmp_path / "summary.md"
    call(fake_program, "run", "--github", ".", GITHUB_STEP_SUMMARY=str(summary))
    text = summary.read_text()
    assert 998_000 < len(text.encode()) < 1 << 20
    rows = text.count("| fail seq |")
    assert text.endswith(f"\n\nand {1_200 - rows} more\n")


def test_a_summary_that_cannot_be_written_is_a_fault(fake_program: Path, tmp_path: Path, call: Call) -> None:
    write(tmp_path, a=b"\n")
    called = call(fake_program, "run", "--github", ".", GITHUB_STEP_SUMMARY=str(tmp_path / "no/such"))
    assert (called.status, called.err) == (2, f"pdsuite: {tmp_path}/no/such: No such file or directory\n")


def test_what_a_signal_leaves_of_20000_scripts_is_written_soon(tmp_path: Path, monkeypatch: pytest.MonkeyPatch) -> None:
    """The report of the run, which the next one reads, and JUnit's; in seconds of the processor."""
    monkeypatch.setenv("XDG_CACHE_HOME", str(tmp_path))
    paths = [f"suite/{number % 10}/script{number:05}.pkt" for number in range(20_000)]
    save_report_or_note_failure(
        [Path("suite")], [ScriptOutcome(it, (), Row(Verdict.PASS, 9)) for it in paths], False, pytest.fail
    )
    left = [ScriptOutcome(it, (), Row(Verdict.NOT_RUN)) for it in paths]
    begin = time.process_time()
    save_report_or_note_failure([Path("suite")], left, False, pytest.fail)
    reported = junit_xml(left, 1.0)
    assert time.process_time() - begin < SLOW
    case = ElementTree.fromstring(reported).find("testsuite/testcase/error")
    assert case is not None and case.attrib == {"message": f"{paths[0]}: not run", "type": "not run"}
    assert case.text == f"{paths[0]}: not run"
