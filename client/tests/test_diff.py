"""`pdsuite diff`: what it shows of two reports, and what it refuses."""

import os
import subprocess
from collections.abc import Callable
from pathlib import Path

import pytest

from tests.helpers import TOP, Call, Called, write
from tests.test_pdsuite import on_terminal

BEFORE = {
    "again": b"row fail 3 missing\n\n\n",
    "gone": b"row fail 1 seq\n",
    "more": b"row pass 9\n",
    "other": b"row fail 1 seq\n",
    "same": b"row fail 1 seq\n",
    "well": b"row pass 2\n",
}
AFTER = {
    "again": b"row pass 5\n",
    "bad": b"row unsupported 1\n",
    "good": b"row pass 4\n",
    "more": b"row fail 2 seq\n\n",
    "other": b"crash\n",
    "same": b"row fail 1 seq\n",
    "well": b"row pass 3\n",
}
TURNED = [
    "suite/more.pkt:2: passes no more: fail seq, was pass 9",
    "suite/other.pkt: fails otherwise: error: pdregress was ended by SIGSEGV, was fail 1 seq",
    "suite/again.pkt: passes again: pass 5, was fail 3 missing",
    "suite/bad.pkt:1: new: unsupported",
    "suite/good.pkt: new: pass 4",
    "suite/gone.pkt: gone, was fail 1 seq",
    "total 8 passes no more 1 fails otherwise 1 not run 0 passes again 1 new 2 gone 1 as before 2",
]
NAMES = [b"a\nb", b"\xff", b"\"quotes'", b"a\\b", b"-v", "grün".encode(), b"a: gone", b"a\x1b[2J"]
SHOWN = [r"a\x0ab", r"\xff", "\"quotes'", r"a\\b", "-v", "grün", "a: gone", r"a\x1b[2J"]

Report = Callable[..., None]


@pytest.fixture
def report(fake_program: Path, tmp_path: Path, call: Call) -> Report:
    """Writes the report of a run into a file."""

    def written(name: str, *words: str) -> None:
        (tmp_path / name).parent.mkdir(parents=True, exist_ok=True)
        (tmp_path / name).write_text(call(fake_program, "run", "--json", *words).out)

    return written


def make(suite: Path, scripts: dict[str, bytes]) -> None:
    """The scripts of a suite, and no others."""
    for path in suite.glob("*.pkt"):
        path.unlink()
    write(suite, **scripts)


def refused(called: Called, why: str) -> None:
    assert (called.status, called.out, called.err) == (2, "", f"pdsuite: {why}\n")


def test_what_turned_is_shown_the_worst_first(report: Report, tmp_path: Path, call: Call) -> None:
    make(tmp_path / "suite", BEFORE)
    report("old.json", "suite")
    make(tmp_path / "suite", AFTER)
    report("new.json", "suite")
    called = call(None, "diff", "old.json", "new.json")
    assert (called.out.splitlines(), called.status, called.err) == (TURNED, 1, "")


def test_where_nothing_got_worse_the_status_is_0(report: Report, tmp_path: Path, call: Call) -> None:
    make(tmp_path / "suite", BEFORE)
    report("old.json", "suite")
    make(tmp_path / "suite", {**BEFORE, "again": b"row pass 5\n", "good": b"\n"})
    report("new.json", "suite")
    called = call(None, "diff", "old.json", "new.json")
    assert (called.status, len(called.out.splitlines())) == (0, 3)
    called = call(None, "diff", "old.json", "old.json")
    last = "total 6 passes no more 0 fails otherwise 0 not run 0 passes again 0 new 0 gone 0 as before 6\n"
    assert (called.status, called.out) == (0, last)


def test_a_run_that_was_ended_early_is_worse(report: Report, tmp_path: Path, call: Call) -> None:
    write(tmp_path / "suite", **{f"s{number:02}": b"row pass 9\n" for number in range(65)})
    report("old.json", "suite")
    write(tmp_path / "suite", s00=b"row fail 1 seq\n")
    report("new.json", "--fail-fast", "suite")
    called = call(None, "diff", "old.json", "new.json")
    assert called.out.splitlines()[:2] == [
        "suite/s00.pkt:1: passes no more: fail seq, was pass 9",
        "suite/s64.pkt: not run, was pass 9",
    ]


def test_a_script_that_was_not_run_has_no_row_that_it_was(report: Report, tmp_path: Path, call: Call) -> None:
    write(tmp_path / "suite", **{f"s{number:02}": b"row pass 9\n" for number in range(65)})
    report("new.json", "suite")
    write(tmp_path / "suite", s00=b"row fail 1 seq\n")
    report("old.json", "--fail-fast", "suite")
    called = call(None, "diff", "old.json", "new.json")
    assert called.out.splitlines()[:2] == [
        "suite/s00.pkt: passes again: pass 9, was fail 1 seq",
        "suite/s64.pkt: new: pass 9",
    ]


def test_a_script_that_a_strict_warning_makes_fail_passes_no_more(report: Report, tmp_path: Path, call: Call) -> None:
    write(tmp_path / "suite", a=b"row pass 0\n", b=b"row pass 2\n")
    report("old.json", "suite")
    report("new.json", "--strict", "suite")
    called = call(None, "diff", "old.json", "new.json")
    assert (called.out.splitlines()[0], called.status) == (
        "suite/a.pkt: passes no more: pass 0 (strict warning), was pass 0",
        1,
    )
    called = call(None, "diff", "new.json", "old.json")
    assert (called.out.splitlines()[0], called.status) == (
        "suite/a.pkt: passes again: pass 0, was pass 0 (strict warning)",
        0,
    )
    called = call(None, "diff", "new.json", "new.json")
    assert (called.out.splitlines()[0][-11:], called.status) == ("as before 2", 0)


def test_the_reports_of_shards_count_as_one(report: Report, tmp_path: Path, call: Call) -> None:
    make(tmp_path / "suite", BEFORE)
    report("old.json", "suite")
    for number in (1, 2):
        report(f"then/{number}/report.json", "--shard", f"{number}/2", "suite")
    make(tmp_path / "suite", AFTER)
    for number in (1, 2, 3):
        report(f"now-{number}.json", "--shard", f"{number}/3", "suite")
    together = b"".join((tmp_path / f"now-{number}.json").read_bytes() for number in (3, 1, 2))
    (tmp_path / "now.json").write_bytes(together)
    for old in ("old.json", "then"):
        for new in (["now.json"], ["now-2.json", "now-1.json", "now-3.json"]):
            called = call(None, "diff", old, *new)
            assert (called.out.splitlines(), called.status) == (TURNED, 1)


def test_a_shard_that_is_missing_is_refused(report: Report, tmp_path: Path, call: Call) -> None:
    make(tmp_path / "suite", BEFORE)
    report("old.json", "suite")
    for number in (1, 2, 3):
        report(f"now/{number}.json", "--shard", f"{number}/3", "suite")
    refused(
        call(None, "diff", "old.json", "now/1.json", "now/3.json"),
        "now/1.json, now/3.json: the report of shard 2/3 is missing",
    )
    refused(call(None, "diff", "now/1.json", "now/2.json"), "now/1.json: the report of shard 2/3 is missing")
    refused(call(None, "diff", "now/1.json", "old.json"), "now/1.json: the report of shard 2/3 is missing")
    refused(
        call(None, "diff", "old.json", "now/1.json", "now/1.json"), "now/1.json and now/1.json are both of shard 1/3"
    )
    assert call(None, "diff", "now/3.json", "now/3.json").status == 0


def test_a_report_is_read_from_a_pipe(report: Report, tmp_path: Path, call: Call, fake_program: Path) -> None:
    make(tmp_path / "suite", BEFORE)
    report("old.json", "suite")
    make(tmp_path / "suite", AFTER)
    command = f'"{TOP}/pdsuite" run --json suite | "{TOP}/pdsuite" diff old.json /dev/stdin'
    environment = {**os.environ, "PDSUITE_PROGRAMS": str(fake_program)}
    done = subprocess.run(["sh", "-c", command], cwd=tmp_path, env=environment, capture_output=True, text=True)
    assert (done.stdout.splitlines(), done.returncode) == (TURNED, 1)


def test_one_report_is_compared_with_what_the_last_run_of_its_scripts_left(
    report: Report, fake_program: Path, tmp_path: Path, call: Call
) -> None:
    make(tmp_path / "suite", BEFORE)
    report("old.json", "suite")
    report("from_above.json", str(tmp_path / "suite"))
    make(tmp_path / "suite", AFTER)
    call(fake_program, "run", "suite")
    call(fake_program, "run", "suite/well.pkt")  # holds not all scripts of the reports
    called = call(None, "diff", "old.json")
    assert (called.out.splitlines(), called.status) == (TURNED, 1)
    assert call(None, "diff", "from_above.json").out.splitlines() == TURNED
    make(tmp_path / "suite", BEFORE)
    call(fake_program, "run", ".")  # was left last, and holds them too
    assert call(None, "diff", "old.json").status == 0


def test_one_report_of_scripts_that_were_not_run_here_is_refused(report: Report, tmp_path: Path, call: Call) -> None:
    make(tmp_path / "suite", BEFORE)
    report("old.json", "suite")
    (tmp_path / "old.json").write_text((tmp_path / "old.json").read_text().replace("suite/", "elsewhere/"))
    why = "old.json: no run has left a report of all these scripts: run them, or name a second report"
    refused(call(None, "diff", "old.json"), why)


def test_reports_of_different_folders_are_refused(report: Report, tmp_path: Path, call: Call) -> None:
    make(tmp_path / "one", BEFORE)
    make(tmp_path / "two", BEFORE)
    report("one.json", "one")
    report("two.json", "two")
    why = "one.json and two.json have no script in common: paths count as they stand there"
    refused(call(None, "diff", "one.json", "two.json"), why)


def test_names_of_any_octets_are_compared_and_shown_alike(report: Report, tmp_path: Path, call: Call) -> None:
    (tmp_path / "suite").mkdir()
    paths = [tmp_path / "suite" / os.fsdecode(name + b".pkt") for name in NAMES]
    for path in paths:
        path.write_bytes(b"row pass 9\n")
    report("old.json", "suite")
    for path in paths:
        path.write_bytes(b"row fail 1 seq\n")
    report("new.json", "suite")
    called = call(None, "diff", "old.json", "new.json")
    *lines, last = called.out.splitlines()
    assert sorted(lines) == sorted(f"suite/{it}.pkt:1: passes no more: fail seq, was pass 9" for it in SHOWN)
    assert last.startswith(f"total {len(NAMES)} passes no more {len(NAMES)} ")


REFUSED = [
    ("old.json", b"<testsuites/>", "old.json: no JSON: Expecting value: line 1 column 1 (char 0)"),
    ("old.json", b'{"tests": []}', "old.json: no report of pdsuite run --json: it has no list of scripts"),
    ("none.json", b"", "none.json: No such file or directory"),
    ("empty", b"", "empty: holds no file *.json"),
    ("a\nb.json", b"", "a\\x0ab.json: no JSON: the file is empty"),
]


@pytest.mark.parametrize(("name", "octets", "why"), REFUSED, ids=range(len(REFUSED)))
def test_what_is_no_report_is_refused(
    name: str, octets: bytes, why: str, report: Report, tmp_path: Path, call: Call
) -> None:
    make(tmp_path / "suite", BEFORE)
    report("new.json", "suite")
    if name == "empty":
        (tmp_path / name).mkdir()
    elif name != "none.json":
        (tmp_path / name).write_bytes(octets)
    refused(call(None, "diff", name, "new.json"), why)
    refused(call(None, "diff", "new.json", name), why)


@pytest.mark.parametrize("words", [["diff"], ["diff", ""], ["diff", "old.json", ""], ["diff", "--tap", "old.json"]])
def test_words_that_it_does_not_take_are_status_2(words: list[str], call: Call) -> None:
    called = call(None, *words)
    assert (called.status, called.out) == (2, "")
    assert "Traceback" not in called.err


def test_a_terminal_shows_in_colour_what_got_worse(report: Report, fake_program: Path, tmp_path: Path) -> None:
    make(tmp_path / "suite", BEFORE)
    report("old.json", "suite")
    make(tmp_path / "suite", AFTER)
    report("new.json", "suite")
    _, shown = on_terminal(tmp_path, fake_program, "diff", "old.json", "new.json")
    assert b"suite/more.pkt:2: \x1b[1;31mpasses no more\x1b[0m: fail seq, was pass 9\r\n" in shown
    assert b"\x1b[32mpasses again\x1b[0m" in shown
    _, shown = on_terminal(tmp_path, fake_program, "diff", "--no-color", "old.json", "new.json")
    assert b"\x1b[" not in shown
