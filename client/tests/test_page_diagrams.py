"""Diagrams on the page: which scripts have one, what stands where there is none, and their files."""

import os
import signal
from pathlib import Path

import pytest

from pdsuite.page.links import page_file_name_of, plot_file_names
from tests.helpers import PASSES, TOP, Call, write
from tests.test_page import octets_in
from tests.watch_process import Watching

RECORDINGS = Path(__file__).with_name("recordings")
ROW = b"row fail 1 seq\n"
EVIL = '<img src=x onerror="document.title=1">'
NAMES = ("$\\frac{$", EVIL)


@pytest.fixture
def recorder(fake_program: Path, tmp_path: Path) -> Path:
    """The fake programs that run and explain, and one that has recorded already."""
    folder = tmp_path / "programs"
    folder.mkdir()
    for program in fake_program.iterdir():
        (folder / program.name).symlink_to(program)
    record(folder, f"cat {RECORDINGS / 'sack.txt'}")
    return folder


def record(folder: Path, command: str, status: int = 0) -> None:
    """Has the program that records do this."""
    (folder / "pdrecord").write_text(f"#!/bin/sh\ncat >/dev/null\n{command}\nexit {status}\n")
    (folder / "pdrecord").chmod(0o755)


def page(folder: Path, path: str) -> str:
    return (folder / "scripts" / page_file_name_of(path)).read_text()


def test_the_first_that_fail_are_drawn_and_the_others_say_how_they_are(
    recorder: Path, tmp_path: Path, call: Call
) -> None:
    write(tmp_path / "in", a=ROW, b=ROW, c=PASSES, d=b"row syntax 1\n", e=b"row unsupported 1\n")
    called = call(recorder, "run", "--html", "out", "--plots", "1", "in")
    assert (called.status, called.err) == (1, "")
    pages = {name: page(tmp_path / "out", f"in/{name}.pkt") for name in "abcde"}
    assert [name for name, text in pages.items() if '<svg class="wide"' in text] == ["a"]
    assert "loss: SACK recovery</text>" in pages["a"]
    assert "others fail before it: --plots N draws" in pages["b"]
    assert "since it passes: --plot PATTERN draws" in pages["c"]
    assert "There is no recording: the text is no script." in pages["d"]
    assert "There is no recording: the sender doesn&#39;t run the script." in pages["e"]
    assert not (tmp_path / "out/plots").exists()


def test_what_is_asked_for_is_drawn_also_as_files_and_the_same_run_gives_the_same_octets(
    recorder: Path, tmp_path: Path, call: Call
) -> None:
    write(tmp_path / "in", a=PASSES, **{NAMES[0]: PASSES, "b": ROW})
    (tmp_path / "in" / f"{EVIL}.pkt").write_bytes(PASSES)
    assert call(recorder, "run", "--html", "one", "--plot", "*", "in").status == 1
    one = octets_in(tmp_path / "one")
    assert call(recorder, "run", "--html", "two", "--plot", "*", "in").status == 1
    assert octets_in(tmp_path / "two") == one
    assert {f"plots/{it}" for name in ("a", "b", *NAMES) for it in plot_file_names(f"in/{name}.pkt")} <= set(one)
    title = one[f"plots/{plot_file_names(f'in/{EVIL}.pkt')[0]}"].decode()
    assert "in/&lt;img src=x onerror=&quot;document.title=1&quot;&gt;.pkt</text>" in title
    math = one[f"plots/{plot_file_names(f'in/{NAMES[0]}.pkt')[0]}"].decode()
    assert "in/$\\\\frac{$.pkt</text>" in math
    assert plot_file_names("in/a.pkt")[1] in page(tmp_path / "one", "in/a.pkt")
    assert call(recorder, "run", "--html", "two", "--plot", "b.pkt", "in").status == 1
    assert {it.name for it in (tmp_path / "two/plots").iterdir()} == set(plot_file_names("in/b.pkt"))


@pytest.mark.parametrize(
    ("command", "status", "words"),
    [
        ("echo 'pdrecord: backwards 3' >&2", 1, "There is no recording: pdrecord: backwards 3"),
        ("printf 'pdrecord: limit 3\\n  limit: 16\\n' >&2", 1, "There is no recording: pdrecord: limit 3"),
        ("echo 'pdrecord: 19 OutOfMemory' >&2", 2, "There is no recording: pdrecord: 19 OutOfMemory"),
        ("echo '0 close(3) = 0'; echo '//= at 0.000000 CLOSED connection:none'", 0, "There is nothing to draw"),
        ("echo nothing", 0, "There is nothing to draw"),
    ],
)
def test_without_a_recording_the_page_says_why(
    command: str, status: int, words: str, recorder: Path, tmp_path: Path, call: Call
) -> None:
    write(tmp_path / "in", a=ROW)
    record(recorder, command, status)
    called = call(recorder, "run", "--html", "out", "in")
    assert (called.status, called.err) == (1, "")
    assert words in page(tmp_path / "out", "in/a.pkt")


def test_without_the_program_the_page_says_so(recorder: Path, tmp_path: Path, call: Call) -> None:
    write(tmp_path / "in", a=ROW)
    os.remove(recorder / "pdrecord")
    assert call(recorder, "run", "--html", "out", "in").status == 1
    assert "pdrecord: no program" in page(tmp_path / "out", "in/a.pkt")


@pytest.mark.parametrize("words", [("--plot", "*"), ("--plots", "3")])
@pytest.mark.parametrize("command", ["run", "watch"])
def test_diagrams_are_asked_for_with_a_page(
    words: tuple[str, str], command: str, recorder: Path, tmp_path: Path, call: Call
) -> None:
    write(tmp_path / "in", a=PASSES)
    called = call(recorder, command, *words, "in")
    assert called.status == 2
    assert "--plot and --plots draw into the page of --html FOLDER" in called.err


def test_watch_draws_what_is_to_be_drawn_after_each_save(recorder: Path, tmp_path: Path) -> None:
    write(tmp_path / "in", a=PASSES, b=ROW)
    files = [tmp_path / "out/plots" / name for name in plot_file_names("in/c.pkt")]

    def await_page(name: str, words: str) -> None:
        """Waits until the page of a script has these words."""
        path = tmp_path / "out/scripts" / page_file_name_of(f"in/{name}.pkt")
        watching._await(lambda: path.exists() and words in path.read_text(), words)

    with Watching(tmp_path, recorder, "--html", "out", "--plots", "1", "--plot", "c.pkt", "in") as watching:
        await_page("a", "since it passes: --plot PATTERN draws")
        await_page("b", '<svg class="wide"')
        write(tmp_path / "in", a=ROW, c=PASSES)
        await_page("a", '<svg class="wide"')
        await_page("b", "others fail before it: --plots N draws")
        await_page("c", '<svg class="wide"')
        assert all(path.exists() for path in files)
        (tmp_path / "in/c.pkt").unlink()
        watching._await(lambda: not any(path.exists() for path in files), "the pictures of what went to go")
        assert watching.err == ""
        assert watching.ends(signal.SIGINT).status == 1


def test_a_built_program_records_what_is_drawn(recording_programs: Path, tmp_path: Path, call: Call) -> None:
    path = "23_sack.pkt"
    (tmp_path / path).write_bytes((TOP / "examples/scripts" / path).read_bytes())
    assert call(recording_programs, "run", "--html", "out", "--plot", "*", path).status == 0
    text = page(tmp_path / "out", path)
    assert "loss: SACK recovery</text>" in text and 'class="again"' in text
