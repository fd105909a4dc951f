"""The report that a run leaves for the next one: which scripts failed last, and what is new since."""

import fcntl
import json
import os
import shutil
import subprocess
from collections.abc import Callable
from pathlib import Path
from typing import Any

import pytest

from pdsuite.output.octets import make_absolute_printable_path_function
from pdsuite.programs.verdict import Row, Verdict
from pdsuite.reports import report_cache
from pdsuite.reports.report_cache import LastReport, cache_folder, newest_report_covering
from pdsuite.run.outcomes import ScriptOutcome
from tests.helpers import TOP, Call, Called, wait_for, write

FAILS = b"row fail 1 seq\n"
OTHERWISE = b"row fail 2 ack\n\n"
NAMES = [b"a\nb", b"\xff", b"\"quotes'", b"a\\b", b"-v", "grün".encode(), b"{json}", b"a, b"]
SHOWN = [r"a\x0ab", r"\xff", "\"quotes'", r"a\\b", "-v", "grün", "{json}", "a, b"]

Run = Callable[..., Called]


@pytest.fixture
def kept(tmp_path: Path) -> Path:
    """The cache of the test."""
    return tmp_path / "cache"


@pytest.fixture
def run(fake_program: Path, kept: Path, call: Call) -> Run:
    """Runs scripts with that cache."""
    return lambda *words, **more: call(fake_program, "run", *words, **{"XDG_CACHE_HOME": str(kept), **more})


def reports(kept: Path) -> list[dict[str, Any]]:
    """The reports that are kept, the newest last."""
    files = sorted((kept / "pdsuite").glob("*.json"), key=lambda it: it.stat().st_mtime_ns)
    return [json.loads(it.read_bytes()) for it in files]


def rows(kept: Path, top: Path) -> dict[str, str]:
    """The verdicts of the only report that is kept, by paths from a folder."""
    (report,) = reports(kept)
    return {it["path"].removeprefix(f"{top}/"): it["verdict"] for it in report["scripts"]}


def test_a_run_leaves_its_report_by_the_absolute_path_of_what_was_run(run: Run, kept: Path, tmp_path: Path) -> None:
    write(tmp_path / "suite", a=b"\n", b=FAILS)
    out = json.loads(run("--json", "suite").out)
    (report,) = reports(kept)
    for script in out["scripts"]:
        script["path"] = f"{tmp_path}/{script['path']}"
        script.pop("explanation", None)
    assert report == {"of": [f"{tmp_path}/suite"], "scripts": out["scripts"]}
    assert (kept / "pdsuite").stat().st_mode & 0o777 == 0o700


def test_only_what_did_not_pass_is_run_again(run: Run, tmp_path: Path) -> None:
    write(
        tmp_path / "suite",
        a=b"\n",
        b=FAILS,
        c=b"row syntax 1\n",
        d=b"row unsupported 1\n",
        e=b"row limit 1\n",
        f=b"crash\n",
    )
    run("suite")
    called = run("--last-failed", "-v", "suite")
    assert called.totals == {"fail": 1, "syntax": 1, "unsupported": 1, "limit": 1, "error": 1}
    write(tmp_path / "suite", b=b"\n", c=b"\n", f=b"\n")
    assert run("--last-failed", "-v", "suite").totals == {"pass": 3, "unsupported": 1, "limit": 1}
    assert run("--last-failed", "-v", "suite").rows == ["suite/d.pkt:1: unsupported", "suite/e.pkt:1: limit"]


def test_what_failed_by_a_warning_is_run_again_too(run: Run, tmp_path: Path) -> None:
    write(tmp_path / "suite", a=b"row pass 0\n", b=b"\n")
    run("suite")
    assert run("--last-failed", "suite").totals == {}
    run("--strict", "suite")
    assert run("--last-failed", "-v", "suite").rows == ["suite/a.pkt: pass 0"]


def test_list_shows_what_failed_last(run: Run, fake_program: Path, kept: Path, tmp_path: Path, call: Call) -> None:
    write(tmp_path / "suite", a=b"\n", b=FAILS)
    run("suite")
    assert call(fake_program, "list", "--last-failed", "suite", XDG_CACHE_HOME=str(kept)).out == "suite/b.pkt\n"


def test_the_same_paths_are_known_from_other_folders_and_in_another_order(
    run: Run, fake_program: Path, kept: Path, tmp_path: Path
) -> None:
    write(tmp_path / "one", a=FAILS, b=b"\n")
    write(tmp_path / "two", c=FAILS)
    run("one", "two")
    assert run("--last-failed", f"{tmp_path}/two", "./one/../one").rows == [
        f"{tmp_path}/two/c.pkt:1: fail seq",
        "one/../one/a.pkt:1: fail seq",
    ]
    environment = {**os.environ, "PDSUITE_PROGRAMS": str(fake_program), "XDG_CACHE_HOME": str(kept)}
    words = ["run", "--last-failed", ".", "../one"]
    done = subprocess.run(
        [TOP / "pdsuite", *words], cwd=tmp_path / "two", env=environment, capture_output=True, text=True
    )
    assert [it for it in done.stdout.splitlines() if it[0] != " "][:2] == [
        "../one/a.pkt:1: fail seq",
        "c.pkt:1: fail seq",
    ]


@pytest.mark.parametrize("words", [["--last-failed", "suite"], ["--last-failed", "suite/in"]])
def test_what_was_never_run_is_refused(words: list[str], run: Run, tmp_path: Path) -> None:
    write(tmp_path / "suite/in", a=FAILS)
    if words[-1] != "suite":
        run("suite")
    called = run(*words)
    message = f"pdsuite: {words[-1]}: no run has left a report: run it without --last-failed first\n"
    assert (called.status, called.out, called.err) == (2, "", message)


def test_where_nothing_failed_last_nothing_is_run(run: Run, tmp_path: Path) -> None:
    write(tmp_path / "suite", a=b"\n")
    run("suite")
    called = run("--last-failed", "suite")
    assert (called.status, called.totals, called.err) == (0, {}, "pdsuite: none of these scripts failed last\n")


def test_a_part_of_the_scripts_leaves_what_is_known_of_the_others(run: Run, kept: Path, tmp_path: Path) -> None:
    suite = tmp_path / "suite"
    write(suite, a=FAILS, b=FAILS, c=b"\n", gone=b"\n")
    run("suite")
    (suite / "gone.pkt").unlink()
    write(suite, a=b"\n", c=FAILS)
    run("--only", "a.pkt", "suite")
    assert rows(kept, suite) == {"a.pkt": "pass", "b.pkt": "fail", "c.pkt": "pass", "gone.pkt": "pass"}
    run("suite")
    assert rows(kept, suite) == {"a.pkt": "pass", "b.pkt": "fail", "c.pkt": "fail"}


def test_a_run_of_what_failed_leaves_what_passed(run: Run, kept: Path, tmp_path: Path) -> None:
    suite = tmp_path / "suite"
    write(suite, a=b"\n", b=FAILS)
    run("suite")
    write(suite, b=b"\n")
    run("--last-failed", "suite")
    assert rows(kept, suite) == {"a.pkt": "pass", "b.pkt": "pass"}


def test_a_script_that_was_not_run_keeps_the_row_that_it_had(run: Run, kept: Path, tmp_path: Path) -> None:
    suite = tmp_path / "suite"
    write(suite, **{f"s{number:03}": b"\n" for number in range(70)}, gone=b"\n")
    run("suite")
    (suite / "gone.pkt").unlink()
    write(suite, s000=FAILS, s069=FAILS, s070=FAILS)
    assert run("--fail-fast", "suite").totals == {"pass": 63, "fail": 1, "not run": 7}
    assert rows(kept, suite) == {"s000.pkt": "fail", **{f"s{it:03}.pkt": "pass" for it in range(1, 70)}}


def test_a_shard_is_one_of_all_scripts_whatever_failed_last(run: Run, tmp_path: Path) -> None:
    write(tmp_path / "suite", a=FAILS, b=FAILS, c=FAILS, d=b"row pass 1\n")
    first = run("--shard", "1/2", "suite").rows
    assert first == ["suite/a.pkt:1: fail seq", "suite/c.pkt:1: fail seq"]
    assert run("--last-failed", "--shard", "1/2", "suite").rows == first
    called = run("--last-failed", "--shard", "2/2", "suite")
    assert (called.totals, called.err) == ({}, "pdsuite: none of these scripts failed last\n")


def test_only_counts_among_what_failed_last(run: Run, tmp_path: Path) -> None:
    write(tmp_path / "suite", a=FAILS, b=FAILS, c=b"\n")
    run("suite")
    assert run("--last-failed", "--only", "[bc].pkt", "suite").rows == ["suite/b.pkt:1: fail seq"]


def test_only_rows_that_differ_are_shown(run: Run, tmp_path: Path) -> None:
    suite = tmp_path / "suite"
    write(suite, again=FAILS, more=FAILS, other=FAILS, same=FAILS, twice=b"row pass 1\n", well=b"\n")
    run("suite")
    write(suite, again=b"row pass 7\n", more=b"row syntax 1\n", other=OTHERWISE, twice=b"row pass 2\n")
    write(suite, bad=FAILS, good=b"\n", worse=b"crash\n")
    called = run("--new-only", "suite")
    assert called.rows == [
        "suite/again.pkt: pass 7",
        "suite/bad.pkt:1: fail seq",
        "suite/more.pkt:1: syntax",
        "suite/other.pkt:2: fail ack",
        "suite/twice.pkt: pass 2",
        "suite/worse.pkt: error: pdregress was ended by SIGSEGV",
    ]
    assert called.totals == {"pass": 4, "fail": 3, "syntax": 1, "error": 1}
    called = run("--new-only", "suite")
    assert (called.rows, called.status) == ([], 2)


def test_new_scripts_that_pass_are_shown_with_v_alone(run: Run, tmp_path: Path) -> None:
    write(tmp_path / "suite", a=b"\n", b=FAILS)
    run("suite")
    write(tmp_path / "suite", c=b"\n")
    assert run("--new-only", "suite").rows == []
    (tmp_path / "suite/d.pkt").write_bytes(b"\n")
    assert run("--new-only", "-v", "suite").rows == ["suite/d.pkt: pass 1"]


def test_where_nothing_was_left_all_rows_are_new(run: Run, tmp_path: Path) -> None:
    write(tmp_path / "suite", a=b"\n", b=FAILS)
    called = run("--new-only", "suite")
    assert called.rows == ["suite/b.pkt:1: fail seq"]
    assert called.err == "pdsuite: suite: no run has left a report: all rows are new\n"


def test_new_annotations_are_of_rows_that_differ(run: Run, tmp_path: Path) -> None:
    write(tmp_path / "suite", a=FAILS, b=FAILS, c=b"\n")
    run("suite")
    write(tmp_path / "suite", b=b"\n", c=FAILS)
    lines = run("--new-only", "--github", "suite").out.splitlines()
    assert [it.split(",")[0] for it in lines[:-1]] == ["::error file=suite/c.pkt"]


@pytest.mark.parametrize("form", ["--tap", "--json"])
def test_a_form_that_has_all_rows_takes_no_new(form: str, run: Run, tmp_path: Path) -> None:
    write(tmp_path / "suite", a=FAILS)
    called = run("--new-only", form, "suite")
    message = "Error: --new-only leaves rows out, and --tap and --json have all"
    assert (called.status, called.out, called.err.splitlines()[-1]) == (2, "", message)


def test_names_of_any_octets_are_known_again(run: Run, tmp_path: Path) -> None:
    (tmp_path / "suite").mkdir()
    for name in NAMES:
        (tmp_path / "suite" / os.fsdecode(name + b".pkt")).write_bytes(FAILS)
    write(tmp_path / "suite", z=b"\n")
    expected = [
        f"suite/{shown}.pkt:1: fail seq" for _, shown in sorted(zip(NAMES, SHOWN), key=lambda it: it[0] + b".pkt")
    ]
    assert run("suite").rows == expected
    assert run("--last-failed", "suite").rows == expected
    assert run("--new-only", "suite").rows == []


def test_a_folder_of_any_octets_is_known_again(run: Run, kept: Path, tmp_path: Path) -> None:
    for name in NAMES:
        folder = tmp_path / os.fsdecode(name)
        write(folder, a=FAILS, b=b"\n")
        run("--", folder)
        assert len(run("--last-failed", "--", folder).rows) == 1
    assert len(reports(kept)) == len(NAMES)


def test_a_run_that_was_ended_leaves_what_it_has(run: Run, kept: Path, tmp_path: Path, fake_program: Path) -> None:
    suite = tmp_path / "suite"
    write(suite, **{f"s{number:02}": b"\n" for number in range(64)}, z=f"stall {tmp_path}/mark\n".encode())
    environment = {**os.environ, "PDSUITE_PROGRAMS": str(fake_program), "XDG_CACHE_HOME": str(kept)}
    process = subprocess.Popen(
        [TOP / "pdsuite", "run", "suite"], cwd=tmp_path, env=environment, stdout=subprocess.PIPE, stderr=subprocess.PIPE
    )
    wait_for(tmp_path / "mark", process)
    process.terminate()
    process.communicate()
    assert process.returncode == 143
    assert rows(kept, suite) == {f"s{number:02}.pkt": "pass" for number in range(64)}


def test_two_runs_at_once_leave_the_rows_of_both(run: Run, kept: Path, tmp_path: Path, fake_program: Path) -> None:
    suite = tmp_path / "suite"
    write(suite, **{f"s{number:03}": FAILS if number % 5 == 0 else b"\n" for number in range(200)})
    environment = {**os.environ, "PDSUITE_PROGRAMS": str(fake_program), "XDG_CACHE_HOME": str(kept)}
    words = [[str(TOP / "pdsuite"), "run", "--shard", f"{number}/6", "suite"] for number in range(1, 7)]
    processes = [subprocess.Popen(it, cwd=tmp_path, env=environment, stdout=subprocess.DEVNULL) for it in words]
    assert {it.wait() for it in processes} == {1}
    assert len(rows(kept, suite)) == 200
    assert run("--last-failed", "suite").totals == {"fail": 40}
    assert sorted(it.name for it in (kept / "pdsuite").iterdir())[0] == "lock"
    assert len(list((kept / "pdsuite").iterdir())) == 2


def not_a_folder(kept: Path) -> str:
    kept.write_bytes(b"")
    return f"{kept}/pdsuite: Not a directory"


def no_room(kept: Path) -> str:
    (kept / "pdsuite").mkdir(parents=True)
    (kept / "pdsuite/new").symlink_to("/dev/full")
    return "No space left on device"


def a_folder_in_its_place(kept: Path) -> str:
    (kept / "pdsuite/new").mkdir(parents=True)
    return f"{kept}/pdsuite/new: Is a directory"


@pytest.mark.parametrize("spoil", [not_a_folder, no_room, a_folder_in_its_place])
def test_a_cache_that_cannot_be_written_is_told_and_the_run_goes_on(
    spoil: Callable[[Path], str], run: Run, kept: Path, tmp_path: Path
) -> None:
    write(tmp_path / "suite", a=b"\n", b=FAILS)
    why = spoil(kept)
    called = run("--junit", "out.xml", "suite")
    assert (called.status, called.rows, called.totals) == (1, ["suite/b.pkt:1: fail seq"], {"pass": 1, "fail": 1})
    assert called.err == f"pdsuite: {why}: the report isn't kept\n"
    assert (tmp_path / "out.xml").exists()


def test_a_home_that_cannot_be_written_is_told(fake_program: Path, open_folder: Path) -> None:
    if os.getuid() != 0:
        pytest.skip("needs root, to be another user for a moment")
    write(open_folder / "suite", a=b"\n")
    (open_folder / "home").mkdir(mode=0o555)
    shutil.copytree(fake_program, open_folder / "programs")
    as_another = ["setpriv", "--reuid=65534", "--clear-groups"]
    if subprocess.run([*as_another, "test", "-r", str(TOP / "pdsuite")]).returncode:
        pytest.skip("needs a repository that other users can read")
    environment = {**os.environ, "PDSUITE_PROGRAMS": str(open_folder / "programs"), "HOME": str(open_folder / "home")}
    del environment["XDG_CACHE_HOME"]
    command = [*as_another, str(TOP / "pdsuite"), "run", "suite"]
    done = subprocess.run(command, cwd=open_folder, env=environment, capture_output=True, text=True)
    message = f"pdsuite: {open_folder}/home/.cache: Permission denied: the report isn't kept\n"
    assert (done.returncode, done.stderr) == (0, message)


def test_who_holds_the_cache_for_long_is_not_waited_for(
    kept: Path, tmp_path: Path, monkeypatch: pytest.MonkeyPatch, capsys: pytest.CaptureFixture[str]
) -> None:
    from pdsuite.reports.last_run import save_report_or_note_failure

    monkeypatch.setenv("XDG_CACHE_HOME", str(kept))
    monkeypatch.setattr(report_cache, "_PATIENCE", 0.1)
    (kept / "pdsuite").mkdir(parents=True)
    notes: list[str] = []
    with (kept / "pdsuite/lock").open("a") as lock:
        fcntl.flock(lock, fcntl.LOCK_EX)
        save_report_or_note_failure([tmp_path], [ScriptOutcome("a.pkt", (), Row(Verdict.PASS, 1))], False, notes.append)
    assert notes == [f"pdsuite: {kept}/pdsuite: another run is writing there: the report isn't kept"]


@pytest.mark.parametrize("octets", [b"", b"{", b'{"of": [], "scripts": [\n]}', b"\xff", b"[" * 100_000])
def test_a_report_that_was_damaged_is_no_report(octets: bytes, run: Run, kept: Path, tmp_path: Path) -> None:
    write(tmp_path / "suite", a=FAILS)
    run("suite")
    (file,) = (kept / "pdsuite").glob("*.json")
    file.write_bytes(octets)
    assert run("--last-failed", "suite").status == 2
    run("--only", "*", "suite")
    assert rows(kept, tmp_path / "suite") == {"a.pkt": "fail"}


def test_a_report_whose_rows_were_damaged_is_named(run: Run, kept: Path, tmp_path: Path) -> None:
    write(tmp_path / "suite", a=FAILS)
    run("suite")
    (file,) = (kept / "pdsuite").glob("*.json")
    file.write_bytes(file.read_bytes().replace(b'"fail"', b'"flail"'))
    called = run("--last-failed", "suite")
    why = "no report of pdsuite run --json: script 1 has no path and row that it writes"
    assert (called.status, called.err) == (2, f"pdsuite: {file}: {why}\n")
    assert run("--only", "*", "suite").status == 1
    assert rows(kept, tmp_path / "suite") == {"a.pkt": "fail"}


def test_a_file_of_other_paths_is_no_report_of_these(
    kept: Path, tmp_path: Path, monkeypatch: pytest.MonkeyPatch
) -> None:
    monkeypatch.setenv("XDG_CACHE_HOME", str(kept))
    monkeypatch.setattr(report_cache, "_cache_file_name", lambda of: "alike.json")
    one, two = LastReport([tmp_path / "one"]), LastReport([tmp_path / "two"])
    one.save_run_keeping_rows_of_unrun([ScriptOutcome("a.pkt", (), Row(Verdict.PASS, 1))], False)
    assert (two.load_if_kept(), one.load_if_kept() is None) == (None, False)
    two.save_run_keeping_rows_of_unrun([ScriptOutcome("b.pkt", (), Row(Verdict.PASS, 1))], True)
    (report,) = reports(kept)
    assert (report["of"], len(report["scripts"])) == ([f"{tmp_path}/two"], 1)


def test_only_so_many_reports_are_kept(kept: Path, tmp_path: Path, monkeypatch: pytest.MonkeyPatch) -> None:
    monkeypatch.setenv("XDG_CACHE_HOME", str(kept))
    monkeypatch.setattr(report_cache, "MOST", 3)
    outcome = ScriptOutcome("a.pkt", (), Row(Verdict.PASS, 1))
    for number in range(6):
        LastReport([tmp_path / str(number)]).save_run_keeping_rows_of_unrun([outcome], False)
        for age, file in enumerate(sorted((kept / "pdsuite").glob("*.json"), key=lambda it: it.name)):
            os.utime(file, (age, age))
    left = [it["of"] for it in reports(kept)]
    assert left == [[f"{tmp_path}/{number}"] for number in (3, 4, 5)]


def test_the_last_report_is_one_of_all_these_scripts(
    kept: Path, tmp_path: Path, monkeypatch: pytest.MonkeyPatch
) -> None:
    monkeypatch.setenv("XDG_CACHE_HOME", str(kept))
    one, two = tmp_path / "suite/a.pkt", tmp_path / "suite2/a.pkt"
    LastReport([tmp_path / "suite"]).save_run_keeping_rows_of_unrun(
        [ScriptOutcome(str(one), (), Row(Verdict.PASS, 1))], False
    )
    found = newest_report_covering([str(one)])
    assert found is not None and list(found.rows) == [str(one)]
    # Another folder may have a longer name that begins so.
    assert newest_report_covering([str(two)]) is newest_report_covering([str(one), str(two)]) is None


def test_the_cache_is_where_the_xdg_rules_have_it(monkeypatch: pytest.MonkeyPatch) -> None:
    monkeypatch.setenv("HOME", "/home/one")
    monkeypatch.setenv("XDG_CACHE_HOME", "/var/kept")
    assert cache_folder() == Path("/var/kept/pdsuite")
    for other in ("", "relative", "./kept"):
        monkeypatch.setenv("XDG_CACHE_HOME", other)
        assert cache_folder() == Path("/home/one/.cache/pdsuite")
    monkeypatch.delenv("XDG_CACHE_HOME")
    assert cache_folder() == Path("/home/one/.cache/pdsuite")


def test_a_path_is_absolute_as_people_see_it(tmp_path: Path, monkeypatch: pytest.MonkeyPatch) -> None:
    monkeypatch.chdir(tmp_path)
    absolute = make_absolute_printable_path_function()
    for path in (
        "a.pkt",
        "in/a.pkt",
        ".hidden/a.pkt",
        "../a.pkt",
        "in/../a.pkt",
        "/a.pkt",
        "/in/../a.pkt",
        "..a/b.pkt",
    ):
        assert absolute(path) == os.path.abspath(path)
    assert absolute("a\n\\.pkt") == f"{tmp_path}/a\\x0a\\\\.pkt"
    monkeypatch.chdir("/")
    assert make_absolute_printable_path_function()("a.pkt") == "/a.pkt"


def test_a_working_folder_that_went_is_no_fault(fake_program: Path, kept: Path, tmp_path: Path) -> None:
    write(tmp_path / "suite", a=b"\n")
    (tmp_path / "here").mkdir()
    command = f'rmdir "{tmp_path}/here" && exec "{TOP}/pdsuite" run "{tmp_path}/suite"'
    environment = {**os.environ, "PDSUITE_PROGRAMS": str(fake_program), "XDG_CACHE_HOME": str(kept)}
    done = subprocess.run(["sh", "-c", command], cwd=tmp_path / "here", env=environment, capture_output=True, text=True)
    shutil.rmtree(tmp_path / "suite")
    assert done.stdout.startswith("total 1 pass 1 ")
    assert (done.returncode, done.stderr) == (0, "pdsuite: No such file or directory: the report isn't kept\n")
