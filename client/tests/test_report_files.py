"""Files of reports beside the report for people: which words name them, where they may be, and what they hold."""

import os
import re
import signal
import subprocess
from pathlib import Path

import pytest

from pdsuite.commands.report_files import split_off_report_files
from tests.helpers import PACKET, TOP, Call, ends, wait_for, write
from tests.schemas import held

FAILS = b"row fail 1 seq\n" + PACKET
_SECONDS = re.compile(r' in [0-9.]+ s$|"seconds": [0-9.]+', re.MULTILINE)


def timeless(text: str) -> str:
    """A report without how long it took."""
    return _SECONDS.sub("", text)


@pytest.fixture
def suite(tmp_path: Path) -> Path:
    """A folder with a script that passes, one that fails and one that is known to."""
    write(tmp_path / "suite", a=b"row pass 9\n", b=FAILS, c=b"row fail 2 ack\n")
    (tmp_path / "suite/pdsuite.toml").write_text('root = true\n["c.pkt"]\nexpect = "fail"\nreason = "so"\n')
    return tmp_path / "suite"


@pytest.mark.parametrize(
    ("words", "rest", "json", "tap"),
    [
        (["--json", "a"], ["--json", "a"], [], []),
        (["--json=a", "b"], ["b"], ["a"], []),
        (["--json", "a.json", "b"], ["b"], ["a.json"], []),
        (["--tap", "a.json"], ["--tap", "a.json"], [], []),
        (["--tap", "x.tap", "--json", "--tap", "b"], ["--json", "--tap", "b"], [], ["x.tap"]),
        (["--json", "-", "a"], ["--json", "a"], [], []),
        (["--json=-", "a"], ["--json", "a"], [], []),
        (["--json=", "a"], ["a"], [""], []),
        (["--only", "--json", "a.json"], ["--only", "--json", "a.json"], [], []),
        (["--only=x", "--json", "a.json"], ["--only=x"], ["a.json"], []),
        (["--json=a", "--", "--json=b", "--tap"], ["--", "--json=b", "--tap"], ["a"], []),
        (["a", "--json"], ["a", "--json"], [], []),
        (["--json", "--json=a.json", "b"], ["--json", "b"], ["a.json"], []),
        (["--jsonx=a", "--github"], ["--jsonx=a", "--github"], [], []),
    ],
)
def test_a_file_comes_after_an_equals_sign_or_ends_as_its_form(
    words: list[str], rest: list[str], json: list[str], tap: list[str]
) -> None:
    assert split_off_report_files(words, {"--only"}) == (rest, {"--json": json, "--tap": tap})


def test_files_come_beside_the_report_for_people(fake_program: Path, suite: Path, tmp_path: Path, call: Call) -> None:
    alone = call(fake_program, "run", "suite")
    called = call(fake_program, "run", "--junit", "out.xml", "--json", "out.json", "--tap=out", "suite")
    assert (timeless(called.out), called.err, called.status) == (timeless(alone.out), "", 1)
    (tmp_path / "only.xml").write_bytes((tmp_path / "out.xml").read_bytes())
    for word, name in (("--json", "out.json"), ("--tap", "out")):
        printed = call(fake_program, "run", word, "suite").out
        assert timeless((tmp_path / name).read_text()) == timeless(printed)
    assert held("run", (tmp_path / "out.json").read_text())["total"]["known"] == 1
    assert 'tests="3"' in (tmp_path / "only.xml").read_text()


def test_one_form_is_printed_and_another_one_written(
    fake_program: Path, suite: Path, tmp_path: Path, call: Call
) -> None:
    printed = call(fake_program, "run", "--json", "--tap=out.tap", "--shard", "1/1", "suite").out
    assert held("run", printed)["shard"] == "1/1"
    assert (tmp_path / "out.tap").read_text().startswith("TAP version 13\n1..3\n")
    called = call(fake_program, "run", "--json", "out.json", "--tap", "suite")
    assert called.out == (tmp_path / "out.tap").read_text().rsplit(" in ")[0] + " in " + called.out.rsplit(" in ")[1]
    assert called.out.startswith("TAP ")
    call(fake_program, "run", "--json", "--json=both.json", "suite")
    assert held("run", (tmp_path / "both.json").read_text())["total"]["scripts"] == 3


def test_a_file_has_the_rows_that_new_leaves_out(fake_program: Path, suite: Path, tmp_path: Path, call: Call) -> None:
    more = {"XDG_CACHE_HOME": str(tmp_path / "cache")}
    call(fake_program, "run", "suite", **more)
    called = call(fake_program, "run", "--new-only", "--json", "out.json", "suite", **more)
    assert called.rows == []
    assert len(held("run", (tmp_path / "out.json").read_text())["scripts"]) == 3


@pytest.mark.parametrize(
    ("words", "message"),
    [
        (["--json=no/such/out"], "--json: no/such/out: the folder above it isn't there"),
        (["--tap", "no/out.tap"], "--tap: no/out.tap: the folder above it isn't there"),
        (["--junit", "no/out.xml"], "--junit: no/out.xml: the folder above it isn't there"),
        (["--junit", "suite/a.pkt/out"], "--junit: suite/a.pkt/out: the folder above it isn't there"),
        (["--json=suite"], "--json: suite: is a folder"),
        (["--json=" + "x" * 300], f"--json: {'x' * 300}: File name too long"),
        (["--junit", "out", "--tap=out"], "--tap: out: --junit is written there"),
        (["--junit", "out", "--json=./suite/../out"], "--json: suite/../out: --junit is written there"),
        (["--json=link", "--tap=there"], "--tap: there: --json is written there"),
        (["--junit", "suite/b.pkt"], "--junit: suite/b.pkt: has the name of a script or of settings"),
        (["--json=pointer"], "--json: pointer: has the name of a script or of settings"),
        (["--json=suite/pdsuite.toml"], "--json: suite/pdsuite.toml: has the name of a script or of settings"),
        (["--junit", "there", "link"], "--junit: there: is one of the scripts"),
    ],
)
def test_a_file_that_cannot_be_written_is_named_before_anything_runs(
    words: list[str], message: str, suite: Path, tmp_path: Path, call: Call
) -> None:
    (tmp_path / "out").write_text("kept")
    (tmp_path / "there").write_text("kept")
    (tmp_path / "link").symlink_to("there")
    (tmp_path / "pointer").symlink_to("suite/b.pkt")
    called = call(tmp_path / "nowhere", "run", *words, "suite")
    assert (called.status, called.out, called.err) == (2, "", f"pdsuite: {message}\n")
    assert {(tmp_path / it).read_text() for it in ("out", "there")} == {"kept"}
    assert (suite / "b.pkt").read_bytes() == FAILS


@pytest.mark.parametrize(
    ("words", "message"),
    [
        (["--json="], "Invalid value for '--json': it is empty, and so names no file."),
        (["--junit", "-"], "Invalid value for '--junit': - is no file, and standard output has the report."),
        (["--json=a", "--json=b"], "--json names two files: a and b"),
        (["--tap", "a.tap"], "Missing argument 'PATHS...'."),
        (["--json", "--tap"], "--json and --tap print a report each: one alone, or --json=FILE"),
        (["--github", "--json=-"], "--github and --json print a report each: one alone, or --json=FILE"),
    ],
)
def test_words_that_name_no_file_are_refused(
    words: list[str], message: str, fake_program: Path, suite: Path, tmp_path: Path, call: Call
) -> None:
    called = call(fake_program, "run", *words, *(["suite"] if "Missing" not in message else []))
    assert (called.status, called.err.splitlines()[-1]) == (2, f"Error: {message}")
    assert sorted(it.name for it in tmp_path.iterdir()) == ["suite"]


def test_a_folder_that_may_not_be_written_is_named(suite: Path, tmp_path: Path, call: Call) -> None:
    if os.getuid() == 0:
        pytest.skip("needs a user whose rights count")
    (tmp_path / "shut").mkdir(mode=0o500)
    called = call(tmp_path / "nowhere", "run", "--json=shut/out", "suite")
    assert (called.status, called.err) == (2, "pdsuite: --json: shut/out: Permission denied\n")


def test_a_full_disk_costs_no_other_report(fake_program: Path, suite: Path, tmp_path: Path, call: Call) -> None:
    words = ["--junit", "/dev/full", "--json=out.json", "--tap=/dev/full", "--html", "page"]
    called = call(fake_program, "run", *words, "suite")
    full = "pdsuite: /dev/full: No space left on device\n"
    assert (called.status, called.err, called.totals) == (2, 2 * full, {"pass": 1, "fail": 1, "known": 1})
    assert len(held("run", (tmp_path / "out.json").read_text())["scripts"]) == 3
    assert (tmp_path / "page/index.html").is_file()


def test_a_device_or_a_pipe_takes_several_reports(fake_program: Path, suite: Path, call: Call) -> None:
    called = call(fake_program, "run", "--json=/dev/null", "--tap=/dev/null", "suite")
    assert (called.status, called.err) == (1, "")
    called = call(fake_program, "run", "--junit", "/dev/stdout", "--tap=/dev/stdout", "suite")
    assert (called.status, called.err) == (1, "")
    places = [called.out.index(it) for it in ("total 3 ", "<testsuites", "TAP version 13")]
    assert places == sorted(places)


def test_no_report_takes_the_place_of_the_one_that_is_shown(fake_program: Path, suite: Path, tmp_path: Path) -> None:
    environment = {**os.environ, "PDSUITE_PROGRAMS": str(fake_program)}
    for file in ("/dev/stdout", "log"):
        command: list[str | Path] = [TOP / "pdsuite", "run", "--junit", file, "suite"]
        with (tmp_path / "log").open("wb") as log:
            done = subprocess.run(command, cwd=tmp_path, env=environment, stdout=log, stderr=subprocess.PIPE)
        assert (done.returncode, done.stderr) == (2, f"pdsuite: --junit: {file}: standard output goes there\n".encode())


def test_what_a_signal_leaves_is_written(fake_program: Path, tmp_path: Path) -> None:
    write(tmp_path / "suite", a=b"row pass 9\n")
    for number in range(100):
        write(tmp_path / "suite", **{f"s{number:02}": b"stall mark\n" if number == 80 else b"\n"})
    command: list[str | Path] = [TOP / "pdsuite", "run", "--json", "out.json", "suite"]
    environment = {**os.environ, "PDSUITE_PROGRAMS": str(fake_program)}
    process = subprocess.Popen(command, cwd=tmp_path, env=environment, stdout=subprocess.PIPE, stderr=subprocess.PIPE)
    wait_for(tmp_path / "mark", process)
    status, _, err = ends(process, signal.SIGTERM)
    assert (status, err) == (143, "")
    total = held("run", (tmp_path / "out.json").read_text())["total"]
    assert (total["pass"], total["not run"]) == (64, 37)


@pytest.mark.parametrize("word", ["--json=ou", "--tap=ou", "ou"])
def test_the_shell_completes_files(word: str, tmp_path: Path) -> None:
    environment = {
        **os.environ,
        "COMP_WORDS": f"pdsuite run --json {word}",
        "COMP_CWORD": "3",
        "_PDSUITE_COMPLETE": "bash_complete",
    }
    done = subprocess.run([TOP / "pdsuite"], cwd=tmp_path, env=environment, capture_output=True, text=True)
    assert (done.stdout, done.stderr) == ("file,ou\n", "")
