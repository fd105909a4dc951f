"""`pdsuite record`: shows what recording scripts anew changes in them, or writes it."""

import os
import shutil
import signal
import subprocess
from pathlib import Path

import pytest

from pdsuite.scripts.file_diff import give_recording_line_ends_of_file, unified_hunks
from tests.helpers import HANGS, TOP, Call, Called, ends, wait_for, write

FAKE_PDRECORD = Path(__file__).with_name("fake_pdrecord.py")
FAILS, PASSES = b"row fail 1 seq\n", b"row pass 1\n"


@pytest.fixture(scope="module")
def recorders(fake_program: Path, tmp_path_factory: pytest.TempPathFactory) -> Path:
    """A folder whose pdregress does what scripts say, and whose pdrecord takes what stands below their first line."""
    folder = tmp_path_factory.mktemp("recorders")
    shutil.copy(fake_program / "pdregress", folder)
    shutil.copy(FAKE_PDRECORD, folder / "pdrecord")
    return folder


def test_what_changes_is_shown_and_nothing_is_written(recorders: Path, tmp_path: Path, call: Call) -> None:
    write(tmp_path / "one", a=FAILS + b"b\nc\n", b=PASSES + b"c\n")
    write(tmp_path / "two", c=FAILS + b"d\n")
    called = call(recorders, "record", "one", "two")
    assert called.out.splitlines() == [
        "--- one/a.pkt",
        "+++ one/a.pkt",
        "@@ -1,3 +1,2 @@",
        "-row fail 1 seq",
        " b",
        " c",
        "--- two/c.pkt",
        "+++ two/c.pkt",
        "@@ -1,2 +1 @@",
        "-row fail 1 seq",
        " d",
        "one: 2 changed 1 lines +0 -1 not recorded 0",
        "two: 1 changed 1 lines +0 -1 not recorded 0",
        "total 3 changed 2 lines +0 -2 not recorded 0",
    ]
    assert (called.status, called.err) == (1, "")
    assert (tmp_path / "one/a.pkt").read_bytes() == FAILS + b"b\nc\n"


def test_write_writes_files_by_renames_that_keep_rights(recorders: Path, tmp_path: Path, call: Call) -> None:
    write(tmp_path, a=FAILS + b"b\n", b=PASSES + b"c\n")
    (tmp_path / "a.pkt").chmod(0o640)
    (tmp_path / "link.pkt").symlink_to("a.pkt")
    before = (tmp_path / "a.pkt").stat().st_ino
    called = call(recorders, "record", "--write", "link.pkt", "b.pkt")
    assert (called.status, called.out, called.err) == (0, "total 2 changed 1 lines +0 -1 not recorded 0\n", "")
    after = (tmp_path / "a.pkt").stat()
    assert ((tmp_path / "a.pkt").read_bytes(), after.st_mode & 0o777) == (b"b\n", 0o640)
    assert after.st_ino != before and (tmp_path / "link.pkt").is_symlink()
    assert sorted(it.name for it in tmp_path.iterdir()) == ["a.pkt", "b.pkt", "link.pkt"]


def test_scripts_that_pass_change_nothing(recorders: Path, tmp_path: Path, call: Call) -> None:
    write(tmp_path, a=PASSES + b"c\n")
    called = call(recorders, "record", ".")
    assert (called.status, called.out) == (0, "total 1 changed 0 lines +0 -0 not recorded 0\n")


LEAVES = b"row pass 1\nends 3 packets stand untaken at its end\n"
OF_INPUTS = b"row pass 1\nends it awaits no packet, and 2 packets stand untaken at its end\n"


def test_a_script_of_inputs_alone_is_recorded_whole(recorders: Path, tmp_path: Path, call: Call) -> None:
    write(tmp_path, a=OF_INPUTS + b"WAY.\n", b=b"row pass 1\nends it awaits no packet\nc\n", c=FAILS + b"WAY.\n")
    called = call(recorders, "record", "--write", ".")
    assert (called.status, called.out) == (0, "total 3 changed 2 lines +2 -4 not recorded 0\n")
    assert (tmp_path / "a.pkt").read_bytes() == OF_INPUTS.partition(b"\n")[2] + b".\n"
    assert (tmp_path / "c.pkt").read_bytes() == b"--minimal.\n"
    (tmp_path / "a.pkt").write_bytes(OF_INPUTS + b"d\n")
    assert call(recorders, "record", "--whole", "a.pkt").out.endswith("total 1 changed 1 lines +0 -1 not recorded 0\n")


@pytest.mark.parametrize(("strict", "changed"), [("true", 1), ("false", 0)])
def test_a_strict_script_that_leaves_packets_is_recorded(
    recorders: Path, tmp_path: Path, call: Call, strict: str, changed: int
) -> None:
    write(tmp_path, a=LEAVES + b"b\n")
    (tmp_path / "pdsuite.toml").write_text(f"root = true\nstrict = {strict}\n")
    called = call(recorders, "record", "--write", ".")
    assert (called.status, called.out) == (0, f"total 1 changed {changed} lines +0 -{changed} not recorded 0\n")


def test_what_is_known_not_to_pass_stays(recorders: Path, tmp_path: Path, call: Call) -> None:
    write(tmp_path, a=FAILS + b"c\n")
    (tmp_path / "pdsuite.toml").write_text('["a.pkt"]\nexpect = "fail 1 seq"\nreason = "so"\n')
    called = call(recorders, "record", ".")
    assert (called.status, called.out) == (0, "total 1 changed 0 lines +0 -0 not recorded 0\n")


def test_each_script_has_its_settings(recorders: Path, tmp_path: Path, call: Call) -> None:
    write(tmp_path, own=FAILS + b"SETTINGS\n", other=FAILS + b"SETTINGS\n")
    (tmp_path / "pdsuite.toml").write_text('root = true\nsack = false\n["own.pkt"]\nmss = 1000\n')
    assert call(recorders, "record", "--write", ".").status == 0
    assert (tmp_path / "own.pkt").read_text().split() == ["mss", "=", "1000", "sack", "=", "false"]
    assert (tmp_path / "other.pkt").read_text() == "sack = false\n"


@pytest.mark.parametrize(
    ("words", "way"),
    [((), "--minimal"), (("--drop-missing",), "--minimal --drop-missing"), (("--whole",), "")],
    ids=["least", "drop", "whole"],
)
def test_the_least_change_is_asked_for(
    recorders: Path, tmp_path: Path, call: Call, words: tuple[str, ...], way: str
) -> None:
    write(tmp_path, a=FAILS + b"so: WAY\n")
    assert call(recorders, "record", "--write", *words, "a.pkt").status == 0
    assert (tmp_path / "a.pkt").read_text() == f"so: {way}\n"


def test_no_comments_are_dropped_of_a_script_that_is_recorded_whole(
    recorders: Path, tmp_path: Path, call: Call
) -> None:
    write(tmp_path, a=FAILS + b"b\n")
    called = call(recorders, "record", "--whole", "--drop-missing", "a.pkt")
    assert (called.status, called.err) == (2, "pdsuite: --drop-missing: not together with --whole\n")


def test_what_is_not_recorded_is_named_and_the_others_are_done(recorders: Path, tmp_path: Path, call: Call) -> None:
    write(tmp_path, a=FAILS, b=FAILS + b"c\n", large=b"x\n" * 4_097)
    called = call(recorders, "record", "--write", ".", "none.pkt")
    assert called.out == "total 4 changed 1 lines +0 -1 not recorded 3\n"
    assert called.err.splitlines() == [
        "a.pkt: isn't recorded: nothing to record",
        "large.pkt: isn't recorded: more than 4,096 lines",
        "none.pkt: isn't recorded: No such file or directory",
    ]
    assert called.status == 2
    assert (tmp_path / "b.pkt").read_bytes() == b"c\n"


def test_a_program_that_ends_on_a_script_goes_on_after_it(recorders: Path, tmp_path: Path, call: Call) -> None:
    write(tmp_path, a=FAILS + b"b\n", c=FAILS + b"d\n")
    (tmp_path / "b.pkt").write_bytes(b"crash")
    called = call(recorders, "record", "a.pkt", "b.pkt", "c.pkt")
    assert "b.pkt: isn't recorded: " in called.err
    assert called.out.splitlines()[-1] == "total 3 changed 2 lines +0 -2 not recorded 1"


def test_a_signal_ends_it_with_what_was_written(recorders: Path, tmp_path: Path) -> None:
    write(tmp_path / "suite", a=b"row fail 1 seq\n", b=f"stall {tmp_path}/mark\n".encode())
    environment = {**os.environ, "PDSUITE_PROGRAMS": str(recorders)}
    command: list[str | Path] = [TOP / "pdsuite", "record", "--write", "suite"]
    process = subprocess.Popen(command, cwd=tmp_path, env=environment, stdout=subprocess.PIPE, stderr=subprocess.PIPE)
    wait_for(tmp_path / "mark", process)
    status, out, err = ends(process, signal.SIGINT)
    assert (status, out) == (130, "")
    assert err == "pdsuite: ended by a signal: 0 of 2 scripts were written\n"


def of_input(folder: Path, place: Path, text: bytes, *words: str) -> Called:
    """A call that records standard input."""
    environment = {**os.environ, "PDSUITE_PROGRAMS": str(folder)}
    done = subprocess.run(
        [TOP / "pdsuite", "record", *words], cwd=place, env=environment, input=text, capture_output=True, timeout=HANGS
    )
    return Called(done.returncode, done.stdout.decode(), done.stderr.decode())


def test_standard_input_is_recorded_with_the_settings_of_the_folder(recorders: Path, tmp_path: Path) -> None:
    (tmp_path / "pdsuite.toml").write_text("root = true\nmss = 1000\n")
    called = of_input(recorders, tmp_path, FAILS + b"SETTINGS\n", "--write", "-")
    assert (called.status, called.out, called.err) == (0, "mss = 1000\n", "")
    called = of_input(recorders, tmp_path, FAILS + b"b\n", "-")
    assert called.status == 1
    assert called.out.splitlines()[:2] == ["--- -", "+++ -"]
    assert of_input(recorders, tmp_path, FAILS, "--write", "-").status == 2
    assert of_input(recorders, tmp_path, FAILS, "-", "x.pkt").err == "pdsuite: -: standard input stands alone\n"


@pytest.mark.parametrize(
    ("old", "recording", "new"),
    [
        (b"a\r\nb\r\n", b"c\nd\n", b"c\r\nd\r\n"),
        (b"a\r\nb", b"c\nd\n", b"c\r\nd"),
        (b"a\r\nb\n", b"c\nd\n", b"c\nd\n"),
        (b"a\nb", b"c\n", b"c"),
        (b"", b"c\n", b"c\n"),
    ],
)
def test_a_recording_has_the_ends_of_lines_of_its_file(old: bytes, recording: bytes, new: bytes) -> None:
    assert give_recording_line_ends_of_file(old, recording) == new


def test_hunks_are_those_that_diff_writes(tmp_path: Path) -> None:
    texts = [b"", b"a\n", b"a", b"a\nb\nc\n", b"x\nb\nc", b"\n".join(b"%d" % it for it in range(40)) + b"\nx\xff\n"]
    for old in texts:
        for new in texts:
            (tmp_path / "old").write_bytes(old)
            (tmp_path / "new").write_bytes(new)
            printed = subprocess.run(["diff", "-u", "old", "new"], cwd=tmp_path, capture_output=True).stdout
            wanted = printed.decode("utf-8", "backslashreplace").splitlines()[2:]
            assert list(unified_hunks(old, new)) == wanted, (old, new)


def test_the_suite_of_examples_stays_green(recording_programs: Path, tmp_path: Path) -> None:
    suite = tmp_path / "suite"
    shutil.copytree(TOP / "examples/suite", suite)
    before = {path: path.read_bytes() for path in suite.rglob("*.pkt")}
    done = subprocess.run(
        [TOP / "pdsuite", "record", "--write", suite],
        env={**os.environ, "PDSUITE_PROGRAMS": str(recording_programs)},
        capture_output=True,
        timeout=HANGS,
    )
    assert (done.returncode, done.stderr) == (0, b"")
    assert {path: path.read_bytes() for path in suite.rglob("*.pkt")} == before
