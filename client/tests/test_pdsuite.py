"""./pdsuite itself: from any folder, through links, on a terminal, and where something isn't there."""

import os
import pty
import re
import shutil
import signal
import subprocess
import time
from collections.abc import Mapping
from pathlib import Path

import pytest

from tests.helpers import HANGS, PASSES, TOP, Call, write
from tests.tree_fixture import vouch


def test_it_runs_under_the_systems_python_whatever_comes_first_on_the_path(
    fake_program: Path, tmp_path: Path, call: Call
) -> None:
    write(tmp_path, a=PASSES)
    other = tmp_path / "bin"
    other.mkdir()
    for name in ("python3", "python", "env"):
        (other / name).write_text("#!/bin/sh\necho another python >&2\nexit 9\n")
        (other / name).chmod(0o755)
    (tmp_path / "rich.py").write_text("raise SystemExit(9)\n")
    more = {"PATH": f"{other}:{os.environ['PATH']}", "PYTHONPATH": str(tmp_path), "PYTHONHOME": "/nowhere"}
    called = call(fake_program, "run", ".", **more)
    assert (called.status, called.err) == (0, "")


def test_it_runs_through_links_from_any_folder(fake_program: Path, tmp_path: Path) -> None:
    write(tmp_path / "suite", a=PASSES)
    (tmp_path / "bin").mkdir()
    (tmp_path / "bin/pdsuite").symlink_to(TOP / "pdsuite")
    (tmp_path / "bin/twice").symlink_to("pdsuite")
    environment = {
        **os.environ,
        "PDSUITE_PROGRAMS": str(fake_program),
        "PATH": f"{tmp_path}/bin:{os.environ['PATH']}",
        "CDPATH": "/",
    }
    for folder in (tmp_path, Path("/"), tmp_path / "suite"):
        for name in ("pdsuite", "twice"):
            done = subprocess.run([name, "run", tmp_path / "suite"], cwd=folder, env=environment, capture_output=True)
            assert (done.returncode, done.stderr) == (0, b"")


def copied(folder: Path) -> Path:
    """A copy of the client and the tools in a folder of its own."""
    for name in ("pdsuite", "crates.txt"):
        shutil.copy(TOP / name, folder / name)
    shutil.copytree(TOP / "client", folder / "client", ignore=shutil.ignore_patterns("tests", ".mypy_cache"))
    shutil.copytree(TOP / "tools", folder / "tools")
    return folder / "pdsuite"


def test_a_missing_package_is_named_with_the_line_that_installs_it(tmp_path: Path) -> None:
    command = copied(tmp_path)
    packages = "python3-click python3-junitparser python3-rich python3-nowhere"
    (tmp_path / "client/packages.txt").write_text(packages.replace(" ", "\n") + "\n")
    done = subprocess.run([command, "run", "."], capture_output=True, text=True)
    line = f"apt-get install --no-install-recommends {packages}"
    assert (done.returncode, done.stderr) == (2, f"pdsuite: python3-nowhere isn't installed: {line}\n")


def without_programs() -> dict[str, str]:
    """The environment, which names no other programs."""
    return {key: value for key, value in os.environ.items() if key != "PDSUITE_PROGRAMS"}


@pytest.mark.parametrize("words", [["run", "--proved", "client"], ["--version"]])
def test_a_program_that_is_not_built_is_named_with_its_command(words: list[str], tmp_path: Path) -> None:
    command = copied(tmp_path)
    write(tmp_path / "client", a=PASSES)
    environment = without_programs()
    done = subprocess.run([command, *words], cwd=tmp_path, env=environment, capture_output=True, text=True)
    message = "pdregress isn't proved and built, or has changed since: run ./prove pdregress"
    assert (done.returncode, done.stderr) == (2, f"pdsuite: {message}\n")
    assert not (tmp_path / "crates").exists()


def test_a_program_whose_sources_have_changed_is_not_taken(fake_program: Path, tmp_path: Path) -> None:
    command = copied(tmp_path)
    (tmp_path / "crates.txt").write_text("low:\npdregress: low\n")
    for name in ("low/src", "pdregress/src", "pdregress/out"):
        (tmp_path / "crates" / name).mkdir(parents=True)
    source = tmp_path / "crates/low/src/lib.rt"
    source.touch()
    shutil.copy(fake_program / "pdregress", tmp_path / "crates/pdregress/out/pdregress")
    write(tmp_path / "suite", a=PASSES)
    environment = without_programs()

    def status() -> int:
        words: list[str | Path] = [command, "run", "--proved", "suite"]
        return subprocess.run(words, cwd=tmp_path, env=environment, capture_output=True).returncode

    assert status() == 2
    vouch(tmp_path, ["pdregress"], environment)
    assert status() == 0
    os.utime(source, (2**32, 2**32))
    assert status() == 0
    source.write_text("// an edit\n")
    os.utime(source, (1, 1))
    assert status() == 2


def test_another_folder_of_programs_has_to_hold_one(tmp_path: Path, call: Call) -> None:
    write(tmp_path, a=PASSES)
    called = call(tmp_path / "nowhere", "run", ".")
    message = f"pdsuite: {tmp_path}/nowhere/pdregress: no program (PDSUITE_PROGRAMS names the folder)\n"
    assert (called.status, called.err) == (2, message)


@pytest.mark.parametrize("more", [[], ["pdrecord"]])
def test_the_version_names_commit_and_programs(more: list[str], tmp_path: Path, call: Call) -> None:
    programs = [tmp_path / name for name in ("pdregress", *more)]
    for path in programs:
        path.write_text(f"#!/bin/true {path.name}\n")
        path.chmod(0o755)
    called = call(tmp_path, "--version")
    first, *others = called.out.splitlines()
    head = subprocess.run(["git", "-C", TOP, "rev-parse", "HEAD"], capture_output=True, text=True).stdout.strip()
    sums = subprocess.run(["sha256sum", *programs], capture_output=True, text=True).stdout.splitlines()
    assert called.status == 0
    assert first in (f"pdsuite {head}", f"pdsuite {head}-dirty", "pdsuite unknown")
    assert others == [f"{path.name} {line.split()[0]} {path}" for path, line in zip(programs, sums)]
    lost = f"pdsuite: {tmp_path}/pdrecord: no program (PDSUITE_PROGRAMS names the folder); nothing is recorded\n"
    assert called.err == ("" if more else lost)


@pytest.mark.parametrize(
    "words", [[], ["run"], ["list"], ["run", "--workers", "65", "."], ["run", "--no-such", "."], ["watch"], ["fly"]]
)
def test_other_words_are_status_2(words: list[str], call: Call) -> None:
    called = call(None, *words)
    assert called.status == (0 if not words else 2)
    assert "Traceback" not in called.err


def on_terminal(folder: Path, programs: Path, *words: str, **more: str) -> tuple[int, bytes]:
    """The status of a call whose standard output is a terminal, and what that shows."""
    inherited = {key: value for key, value in os.environ.items() if key != "NO_COLOR"}
    environment = {**inherited, "PDSUITE_PROGRAMS": str(programs), "TERM": "xterm-256color", **more}
    return shown_on_terminal([TOP / "pdsuite", *words], folder, environment)


def shown_on_terminal(command: list[str | Path], folder: Path, environment: Mapping[str, str]) -> tuple[int, bytes]:
    """The status of a command whose standard output is a terminal, and what that shows."""
    near, far = pty.openpty()
    process = subprocess.Popen(command, cwd=folder, env=environment, stdout=far)
    os.close(far)
    shown = b""
    try:
        while octets := os.read(near, 65_536):
            shown += octets
    except OSError:
        pass  # the other end was closed
    os.close(near)
    return process.wait(), shown


def test_a_terminal_has_colours_and_a_line_of_progress_that_goes_away(fake_program: Path, tmp_path: Path) -> None:
    for number in range(130):
        write(tmp_path, **{f"s{number:03}": b"row fail 1 seq\n" if number == 100 else PASSES})
    status, shown = on_terminal(tmp_path, fake_program, "run", ".")
    assert status == 1
    assert b"\x1b[1;31mfail seq\x1b[0m\r\n" in shown
    assert b"64/130" in shown and b"128/130" in shown
    assert b"\x1b[?25l" in shown and shown.rindex(b"\x1b[?25h") > shown.rindex(b"\x1b[?25l")
    last = shown[shown.rindex(b"\x1b[2K") :]
    assert b"total 130 pass 129 fail 1 " in last and b"/130" not in last


@pytest.mark.parametrize("how", ["option", "environment"])
def test_colours_can_be_left_out(how: str, fake_program: Path, tmp_path: Path) -> None:
    write(tmp_path, a=b"row fail 1 seq\n")
    words = ["--no-color"] if how == "option" else []
    more = {"NO_COLOR": "1"} if how == "environment" else {}
    _, shown = on_terminal(tmp_path, fake_program, "run", *words, ".", **more)
    assert b"a.pkt:1: fail seq\r\n  row fail 1 seq\r\n" in shown
    assert not re.search(rb"\x1b\[[0-9;]*m", shown)


def test_a_long_line_is_not_broken_on_a_terminal(fake_program: Path, tmp_path: Path) -> None:
    write(tmp_path / "folder" / ("x" * 150), **{"y" * 150: b"row fail 1 seq\n"})
    _, shown = on_terminal(tmp_path, fake_program, "run", "--no-color", ".")
    assert f"folder/{'x' * 150}/{'y' * 150}.pkt:1: fail seq\r\n".encode() in shown


def test_a_terminal_has_facts_and_totals_in_lines_that_fit(fake_program: Path, tmp_path: Path) -> None:
    facts = "state: " + " ".join(f"fact{number}:{number}" for number in range(20))
    packet = f"actual packet: +0 > . 1:1001(1000) ack 1 <{'nop,' * 20}nop>"
    write(tmp_path, a=f"row fail 1 seq\n{packet}\n{facts}\n".encode())
    _, shown = on_terminal(tmp_path, fake_program, "run", "--no-color", ".", COLUMNS="60")
    lines = re.sub(r"\x1b\[[?0-9;]*[A-Za-z]", "", shown.decode()).replace("\r", "\n").split("\n")
    broken = [it for it in lines if "fact" in it or "total" in it or it.endswith(" s")]
    assert len(broken) == 6 and max(map(len, broken)) < 60
    assert broken[0].startswith("  state: fact0") and all(it.startswith("    fact") for it in broken[1:4])
    assert broken[4].startswith("total 1 pass 0 fail 1 ") and f"  {packet}" in lines
    _, shown = on_terminal(tmp_path, fake_program, "run", "--no-color", "--github", ".", COLUMNS="60")
    assert f"  {facts}".encode() in shown


def test_standard_output_may_be_closed(fake_program: Path, tmp_path: Path) -> None:
    write(tmp_path, a=PASSES)
    environment = {**os.environ, "PDSUITE_PROGRAMS": str(fake_program)}
    command = ["sh", "-c", 'exec "$0" run . >&-', str(TOP / "pdsuite")]
    done = subprocess.run(command, cwd=tmp_path, env=environment, capture_output=True, text=True)
    assert (done.returncode, done.stderr) == (2, "pdsuite: standard output is closed\n")


@pytest.mark.parametrize("locale", ["C", "POSIX", "de_DE.ISO-8859-1", "C.UTF-8"])
def test_names_are_shown_alike_in_every_locale(locale: str, fake_program: Path, tmp_path: Path, call: Call) -> None:
    write(tmp_path, **{"grün": b"row fail 1 seq\n"})
    (tmp_path / os.fsdecode(b"\xff.pkt")).write_bytes(b"row fail 1 seq\n")
    called = call(fake_program, "run", ".", LC_ALL=locale)
    assert called.rows == ["grün.pkt:1: fail seq", r"\xff.pkt:1: fail seq"]


NAMELESS = [
    ("PATHS...", ["run", "a.pkt", ""]),
    ("PATHS...", ["watch", ""]),
    ("PATHS...", ["list", ""]),
    ("--script", ["rules", "--script", ""]),
    ("FROM", ["import", "", "to"]),
    ("TO", ["import", ".", ""]),
    ("--junit", ["run", ".", "--junit", ""]),
    ("--html", ["run", ".", "--html="]),
]


@pytest.mark.parametrize(("word", "words"), NAMELESS, ids=[" ".join(it[1]) for it in NAMELESS])
def test_an_empty_word_is_no_path(word: str, words: list[str], fake_program: Path, tmp_path: Path, call: Call) -> None:
    write(tmp_path, a=PASSES)
    called = call(fake_program, *words)
    assert (called.status, called.out) == (2, "")
    assert called.err.splitlines()[-1] == f"Error: Invalid value for '{word}': it is empty, and so names no file."
    assert os.listdir(tmp_path) == ["a.pkt"]


def test_an_empty_no_color_forbids_no_colours(fake_program: Path, tmp_path: Path) -> None:
    write(tmp_path, a=b"row fail 1 seq\n")
    _, shown = on_terminal(tmp_path, fake_program, "run", ".", NO_COLOR="")
    assert b"\x1b[1;31mfail seq\x1b[0m\r\n" in shown


RENAMED = [
    ("run", "--new", "--new-only"),
    ("run", "--all-differences", "--full-diff"),
    ("record", "--drop", "--drop-missing"),
    ("compare", "--owes", "--affected"),
    ("import", "--keep", "--keep-packets"),
]


@pytest.mark.parametrize(("command", "old", "new"), RENAMED, ids=[it[1] for it in RENAMED])
def test_an_option_by_its_old_name_is_refused_with_the_new_one(command: str, old: str, new: str, call: Call) -> None:
    for word in (old, f"{old}=1"):
        called = call(None, command, word, "a", "b")
        assert (called.status, called.out) == (2, "")
        assert called.err.startswith(f"Usage: pdsuite {command} [OPTIONS] ")
        assert called.err.splitlines()[-1] == f"Error: No such option: {old}; its name is {new}."


def test_of_another_command_an_old_name_is_any_word(call: Call) -> None:
    called = call(None, "list", "--all-differences", ".")
    assert called.status == 2 and "No such option: --all-differences" in called.err and "full-diff" not in called.err


def test_words_that_are_not_taken_are_shown_escaped(call: Call) -> None:
    called = call(None, "run", b"--x\x07\xff\\y", ".")
    assert (called.status, called.err.splitlines()[-1]) == (2, r"Error: No such option: --x\x07\xff\\y")


def test_a_program_whose_crates_are_not_known_is_not_taken(fake_program: Path, tmp_path: Path) -> None:
    command = copied(tmp_path)
    (tmp_path / "crates/pdregress/out").mkdir(parents=True)
    shutil.copy(fake_program / "pdregress", tmp_path / "crates/pdregress/out/pdregress")
    write(tmp_path / "suite", a=PASSES)
    environment = without_programs()
    message = "pdregress isn't proved and built, or has changed since: run ./prove pdregress"
    for lines in ("", "pdrecord:\n", "pdregress: gone\ngone:\n", None):
        if lines is None:
            (tmp_path / "crates.txt").unlink()
        else:
            (tmp_path / "crates.txt").write_text(lines)
        words: list[str | Path] = [command, "run", "--proved", "suite"]
        done = subprocess.run(words, cwd=tmp_path, env=environment, capture_output=True, text=True)
        assert (done.returncode, done.stdout) == (2, "")
        assert done.stderr.splitlines()[-1].endswith(message)


def with_tool(folder: Path, fake_program: Path, before: str) -> Path:
    """A copy whose tools/proved_program.sh notes whom it is queried about, and names the fake programs."""
    command = copied(folder)
    text = f'#!/bin/sh\necho "$1" >>"{folder}/asked"\n{before}\necho "{fake_program}/$1"\n'
    (folder / "tools/proved_program.sh").write_text(text)
    write(folder / "suite", a=PASSES, b=b"row fail 1 seq\n")
    return command


def test_whether_a_program_is_up_to_date_is_asked_once(tmp_path: Path, fake_program: Path) -> None:
    command = with_tool(tmp_path, fake_program, "")
    (tmp_path / "suite/pdsuite.toml").write_text('["a.pkt"]\nmss = 1000\n')
    done = subprocess.run([command, "run", "suite"], cwd=tmp_path, env=without_programs(), capture_output=True)
    assert (done.returncode, done.stderr) == (1, b"")
    # The files on which the answer depends are listed first, so that a change after that is seen.
    assert (tmp_path / "asked").read_text() == "--files\npdregress\n"


IGNORING = ("sh", "-c", """trap '' INT; exec "$@" """, "sh")


@pytest.mark.parametrize(("before", "status"), [((), 130), (IGNORING, 1)])
def test_a_key_of_the_terminal_ends_it_while_it_asks_unless_it_is_ignored(
    before: tuple[str, ...], status: int, tmp_path: Path, fake_program: Path
) -> None:
    command = with_tool(tmp_path, fake_program, f'touch "{tmp_path}/mark"\nsleep 0.5')
    process = subprocess.Popen(
        [*before, command, "run", "suite"],
        cwd=tmp_path,
        env=without_programs(),
        stdout=subprocess.PIPE,
        stderr=subprocess.PIPE,
        process_group=0,
    )
    until = time.monotonic() + HANGS
    while not (tmp_path / "mark").exists():
        assert time.monotonic() < until and process.poll() is None
        time.sleep(0.01)
    os.killpg(process.pid, signal.SIGINT)
    out, errors = process.communicate(timeout=HANGS)
    assert (out == b"", errors, process.returncode) == (status == 130, b"", status)


@pytest.mark.parametrize(
    ("words", "user", "calls"),
    [
        ([], 0, ["update", "install -y --no-install-recommends python3-nowhere"]),
        (["--no-install"], 0, []),
        ([], 1000, []),
    ],
)
def test_the_gate_installs_what_is_missing_or_names_the_line(
    words: list[str], user: int, calls: list[str], tmp_path: Path
) -> None:
    copied(tmp_path)
    shutil.copytree(TOP / "tests", tmp_path / "tests", ignore=shutil.ignore_patterns("cases"))
    (tmp_path / "client/packages-test.txt").write_text("black\npython3-nowhere\n")
    tools = {
        "dpkg-query": "case $* in *nowhere) exit 1 ;; esac\necho installed",
        "apt-get": f'echo "$*" >>"{tmp_path}/calls"',
        "id": f"echo {user}",
    }
    (tmp_path / "bin").mkdir()
    for name, text in tools.items():
        (tmp_path / "bin" / name).write_text(f"#!/bin/sh\n{text}\n")
        (tmp_path / "bin" / name).chmod(0o755)
    environment = {**os.environ, "PATH": f"{tmp_path}/bin:{os.environ['PATH']}"}
    command: list[str | Path] = [tmp_path / "tests/client.sh", *words]
    done = subprocess.run(command, env=environment, capture_output=True, text=True)
    line = "FAILED client packages: apt-get install --no-install-recommends python3-nowhere"
    assert done.stdout.splitlines() == ["missing packages: python3-nowhere", line, "0 passed, 1 failed"]
    assert done.returncode == 1
    calls_file = tmp_path / "calls"
    assert (calls_file.read_text().splitlines() if calls_file.exists() else []) == calls


CODE = """
import sys
client, *sys.argv[1:] = sys.argv[1:]
sys.path.insert(0, client)
from pdsuite.main import main
main()
print(*sorted({"matplotlib", "distributed", "watchdog", "junitparser", "jinja2"} & sys.modules.keys()))
"""


@pytest.mark.parametrize(("words", "modules"), [([], ""), (["--junit", "out.xml"], ""), (["--html", "page"], "jinja2")])
def test_a_package_is_imported_only_where_it_is_used(
    words: list[str], modules: str, fake_program: Path, tmp_path: Path
) -> None:
    write(tmp_path / "suite", a=PASSES)
    environment = {**os.environ, "PDSUITE_PROGRAMS": str(fake_program)}
    command = ["/usr/bin/python3", "-I", "-c", CODE, str(TOP / "client"), "run", *words, "suite"]
    done = subprocess.run(command, cwd=tmp_path, env=environment, capture_output=True, text=True)
    assert done.stdout.splitlines()[-1] == modules
