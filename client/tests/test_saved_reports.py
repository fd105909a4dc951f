"""Reports that are read back: what is one, and how those of several shards become one."""

import json
from pathlib import Path

import pytest

from pdsuite.faults import Fault
from pdsuite.programs.verdict import Row, Verdict
from pdsuite.reports.as_json import JsonFormatter, script_json
from pdsuite.reports.saved_reports import SavedReport, SavedRow, join_reports, parse_reports, read_reports_as_one
from pdsuite.run.outcomes import ScriptOutcome, OutcomeTotals
from pdsuite.scripts.settings import Settings
from pdsuite.scripts.shards import Shard

ROWS = [
    Row(Verdict.PASS, 9),
    Row(Verdict.PASS, 0),
    Row(Verdict.FAIL, 12, "seq"),
    Row(Verdict.SYNTAX, 1),
    Row(Verdict.UNSUPPORTED, 4_096),
    Row(Verdict.LIMIT, 3),
    Row(Verdict.ERROR, word='it said "no" \\x07'),
    Row(Verdict.NOT_RUN),
]
NAMES = ["a.pkt", "a b/c.pkt", "q\"uo'te.pkt", r"a\x0ab.pkt", r"\xff.pkt", r"a\\b.pkt", "grün.pkt"]


def written(outcomes: list[ScriptOutcome], shard: Shard | None = None) -> bytes:
    """A report as `pdsuite run --json` prints it."""
    form = JsonFormatter(shard)
    entries = [form.streamed_script_entry_or_none(number, it) for number, it in enumerate(outcomes, 1)]
    parts = [
        form.opening_before_scripts(len(outcomes)),
        *entries,
        form.totals_after_scripts(OutcomeTotals.of_outcomes(outcomes), 1.5),
    ]
    return "".join(it.text_without_styles for it in parts).encode()


@pytest.mark.parametrize("row", ROWS, ids=str)
def test_a_row_is_read_as_it_was_written(row: Row) -> None:
    outcome = ScriptOutcome("a.pkt", (("mss", 1000),), row, b"a line", "what it is", ("below",))
    (report,) = parse_reports("here", written([outcome]))
    assert report == SavedReport("here", {"a.pkt": SavedRow(row)})


def test_paths_are_as_people_see_them() -> None:
    octets = [b"a.pkt", b"a b/c.pkt", b"q\"uo'te.pkt", b"a\nb.pkt", b"\xff.pkt", b"a\\b.pkt", "grün.pkt".encode()]
    outcomes = [ScriptOutcome(it.decode("utf-8", "surrogateescape"), (), ROWS[0]) for it in octets]
    assert list(parse_reports("here", written(outcomes))[0].rows) == NAMES


SETTINGS: list[Settings] = [(), (("mss", 1000),), (("initial_window", "rfc6928"), ("sack", False))]


@pytest.mark.parametrize("settings", SETTINGS, ids=str)
@pytest.mark.parametrize("path", NAMES)
def test_the_line_of_a_pass_is_the_one_of_its_values(settings: Settings, path: str) -> None:
    line = script_json(ScriptOutcome("other.pkt", settings, Row(Verdict.PASS, 9)), path)
    values = {"path": path, "verdict": "pass", "events": 9, "below": [], "settings": dict(settings)}
    assert line == json.dumps(values, ensure_ascii=False)


def test_a_report_says_which_shard_it_is_of() -> None:
    (report,) = parse_reports("here", written([], Shard(2, 3)))
    assert report == SavedReport("here", {}, frozenset((Shard(2, 3),)))


def test_a_report_of_an_older_pdsuite_is_read() -> None:
    old = (
        b'{"scripts": [\n{"path": "a.pkt", "verdict": "fail", "line": 2, "kind": "result", "what": "the call has'
        b' another result", "below": ["call: x"], "settings": {}}\n], "total": {"scripts": 1, "pass": 0, "fail": 1,'
        b' "syntax": 0, "unsupported": 0, "limit": 0, "error": 0, "not run": 0}, "seconds": 0.05}\n'
    )
    assert parse_reports("here", old)[0].rows == {"a.pkt": SavedRow(Row(Verdict.FAIL, 2, "result"))}


def a_script(**other: object) -> str:
    return json.dumps({"scripts": [{"path": "a.pkt", "verdict": "pass", "events": 1, **other}]})


NO_ROW = "here: no report of pdsuite run --json: script 1 has no path and row that it writes"
NO_LIST = "here: no report of pdsuite run --json: it has no list of scripts"
OTHER: list[tuple[str | bytes, str]] = [
    ("", "here: no JSON: the file is empty"),
    (" \n", "here: no JSON: the file is empty"),
    ("{", "here: no JSON: Expecting property name enclosed in double quotes: line 1 column 2 (char 1)"),
    ('{"scripts": []} x', "here: no JSON: Expecting value: line 1 column 17 (char 16)"),
    (b"\xff", "here: no JSON: 'utf-8' codec can't decode byte 0xff in position 0: invalid start byte"),
    (
        "[" * 100_000,
        "here: no JSON: maximum recursion depth exceeded while decoding a JSON array from a unicode string",
    ),
    ("<testsuites/>", "here: no JSON: Expecting value: line 1 column 1 (char 0)"),
    ("[]", NO_LIST),
    ("{}", NO_LIST),
    ('{"scripts": {}}', NO_LIST),
    ('{"scripts": [], "shard": 3}', "here: no report of pdsuite run --json: its shard is no K/N"),
    ('{"scripts": [], "shard": "4/3"}', "here: no report of pdsuite run --json: its shard is no K/N"),
    ('{"scripts": [1]}', NO_ROW),
    (a_script(path=1), NO_ROW),
    (a_script(path=""), NO_ROW),
    (a_script(path="a\nb"), NO_ROW),
    (a_script(path="\ud800"), NO_ROW),
    (a_script(verdict="pending"), NO_ROW),
    (a_script(verdict=["pass"]), NO_ROW),
    (a_script(events="9"), NO_ROW),
    (a_script(events=-1), NO_ROW),
    (a_script(verdict="fail", line=3), NO_ROW),
    (a_script(verdict="fail", line=0, kind="seq"), NO_ROW),
    (a_script(verdict="fail", line=3, kind="a\nb"), NO_ROW),
    (a_script(verdict="syntax"), NO_ROW),
    (a_script(verdict="error", reason="\x1b[2J"), NO_ROW),
    (
        '{"scripts": [{"path": "a", "verdict": "not run"}, {"path": "a", "verdict": "not run"}]}',
        "a: stands twice in here",
    ),
]


@pytest.mark.parametrize(("text", "reason"), OTHER, ids=range(len(OTHER)))
def test_all_else_is_refused_with_its_place(text: str | bytes, reason: str) -> None:
    with pytest.raises(Fault) as fault:
        parse_reports("here", text if isinstance(text, bytes) else text.encode("utf-8", "surrogatepass"))
    assert str(fault.value) == reason


def report(place: str, *paths: str, shard: Shard | None = None) -> SavedReport:
    return SavedReport(place, {it: SavedRow(ROWS[0]) for it in paths}, frozenset(() if shard is None else (shard,)))


def test_the_reports_of_shards_are_one() -> None:
    one, two = report("1", "a", "c", shard=Shard(1, 2)), report("2", "b", shard=Shard(2, 2))
    whole = join_reports("new", [two, one])
    assert set(whole.rows) == {"a", "b", "c"}
    assert (whole.place, sorted(whole.shards), whole.first_missing_shard()) == ("new", [Shard(1, 2), Shard(2, 2)], None)


def test_the_first_shard_that_is_missing_is_named() -> None:
    part = join_reports("new", [report("1", shard=Shard(number, 999_999_999)) for number in (1, 2, 4)])
    assert part.first_missing_shard() == Shard(3, 999_999_999)
    assert report("1", shard=Shard(1, 2)).first_missing_shard() == Shard(2, 2)
    assert report("1", "a").first_missing_shard() is None


APART = [
    ([report("1", "a"), report("2", "a")], "a: stands in 1, and again in 2"),
    ([report("1", shard=Shard(1, 2)), report("2", shard=Shard(1, 2))], "1 and 2 are both of shard 1/2"),
    (
        [report("1", shard=Shard(1, 2)), report("2", shard=Shard(2, 3))],
        "1 is of shard 1/2 and 2 of shard 2/3: they are no one run",
    ),
    ([report("1", "a"), report("2", shard=Shard(1, 2))], "1 is of all scripts and 2 of shard 1/2: they are no one run"),
]


@pytest.mark.parametrize(("reports", "reason"), APART, ids=range(len(APART)))
def test_reports_that_are_no_one_run_are_refused(reports: list[SavedReport], reason: str) -> None:
    with pytest.raises(Fault) as fault:
        join_reports("new", reports)
    assert str(fault.value) == reason


def outcomes(*paths: str) -> list[ScriptOutcome]:
    return [ScriptOutcome(it, (), ROWS[0]) for it in paths]


def test_a_file_holds_several_reports_and_a_folder_several_files(tmp_path: Path) -> None:
    (tmp_path / "in/er").mkdir(parents=True)
    (tmp_path / "in/two.json").write_bytes(written(outcomes("a")) + written(outcomes("b")))
    (tmp_path / "in/er/one.json").write_bytes(b"\n" + written(outcomes("c")))
    (tmp_path / "in/other.xml").write_bytes(b"<testsuites/>")
    whole = read_reports_as_one([tmp_path / "in"])
    assert (set(whole.rows), whole.place) == ({"a", "b", "c"}, f"{tmp_path}/in")


def test_a_folder_without_a_report_is_refused(tmp_path: Path) -> None:
    with pytest.raises(Fault, match=r"holds no file \*\.json$"):
        read_reports_as_one([tmp_path])


def test_a_file_that_is_not_there_is_refused(tmp_path: Path) -> None:
    with pytest.raises(Fault, match=r"/none\.json: No such file or directory$"):
        read_reports_as_one([tmp_path / "none.json"])
