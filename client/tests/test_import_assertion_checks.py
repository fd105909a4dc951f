"""Assertions beside the states of a recording, which is worked out by hand here; and as `pdsuite run` reports them."""

import os
from pathlib import Path

import pytest

from pdsuite.imports.assertion_checks import check_assertions
from tests.helpers import Call, write
from tests.test_import_conversion import OPEN

SYN = "+0 < S 0:0(0) win 32792 <mss 1000,sackOK,nop,nop,nop,wscale 7>\n"


def state(moment: str, more: str = "") -> str:
    """The line of a state; facts that aren't named are those of a connection with nothing outstanding."""
    usual = {"una": "1", "next": "1", "top": "1", "end": "1", "cwnd": "4000", "FlightSize": "0", "recovery": "none"}
    facts = {**usual, **dict(it.split(":") for it in more.split())}
    return f"//= at {moment} ESTABLISHED {' '.join(f'{name}:{value}' for name, value in facts.items())}\n"


def checked(recording: str, row_line: int | None = None, mss: int = 1460) -> list[tuple[int, bool | None]]:
    """The lines of the assertions of a recording, and whether they hold; its script is what is no line of a state."""
    script = "".join(it for it in recording.splitlines(keepends=True) if not it.startswith("//= "))
    return [(it.line, it.holds) for it in check_assertions(script, recording, row_line, mss)]


@pytest.mark.parametrize(
    ("facts", "assertion", "holds"),
    [
        ("cwnd:10999", "tcpi_snd_cwnd == 10", True),
        ("cwnd:11000", "tcpi_snd_cwnd == 10", False),
        ("cwnd:9999", "tcpi_snd_cwnd == 10", False),
        ("FlightSize:0", "tcpi_unacked == 0", True),
        ("FlightSize:1", "tcpi_unacked == 0", False),
        ("recovery:RFC6675", "tcpi_ca_state == TCP_CA_Recovery", True),
        ("recovery:RFC5681", "tcpi_ca_state == TCP_CA_Recovery", True),
        ("recovery:none", "tcpi_ca_state == TCP_CA_Recovery", False),
        ("recovery:none", "tcpi_ca_state == TCP_CA_Open", True),
        ("recovery:none", "tcpi_ca_state == TCP_CA_Loss", False),
    ],
)
def test_an_assertion_is_compared_with_the_state_before_it(facts: str, assertion: str, holds: bool) -> None:
    text = SYN + state("0.100000", "cwnd:1") + "+0 close(4) = 0\n" + state("0.100000", facts)
    assert checked(f"{text}// asserts {assertion}\n+1 close(3) = 0\n{state('1.100000', 'cwnd:1 FlightSize:9')}") == [
        (3, holds)
    ]


def test_after_an_expiry_it_is_in_loss_until_all_is_acknowledged_that_was_sent() -> None:
    assertions = "".join(f"// asserts tcpi_ca_state == TCP_CA_{it}\n" for it in ("Loss", "Open"))
    text = SYN + state("0.100000") + "+0 write(4, ..., 2000) = 2000\n" + state("0.100000", "top:2001 FlightSize:2000")
    text += "+1 > . 1:1001(1000) ack 1\n" + state("1.100000", "top:2001 FlightSize:2000")
    text += "+0.1 < . 1:1(0) ack 1001 win 257\n" + state("1.200000", "una:1001 top:2001") + assertions
    text += "+0.1 < . 1:1(0) ack 2001 win 257\n" + state("1.300000", "una:2001 top:2001") + assertions
    assert checked(text) == [(5, True), (6, False), (8, False), (9, True)]


EXPIRY = "+1 > . 1:1001(1000) ack 1\n" + state("1.100000")
WITHOUT = [
    # No input before it, no connection, an expiry after the last input, and the line of the row before it.
    ("// asserts tcpi_unacked == 0\n" + SYN + state("0.100000"), None, 1),
    (SYN + "//= at 0.100000 CLOSED connection:none\n// asserts tcpi_unacked == 0\n", None, 2),
    (SYN + state("0.100000") + EXPIRY + "// asserts tcpi_unacked == 0\n", None, 3),
    (SYN + state("0.100000") + "// asserts tcpi_unacked == 0\n" + EXPIRY, None, 2),
    (SYN + state("0.100000") + "// asserts tcpi_unacked == 0\n", 1, 2),
    (SYN.replace("1000", "63") + state("0.100000") + "// asserts tcpi_snd_cwnd == 4\n", None, 2),
]


@pytest.mark.parametrize(("text", "row_line", "line"), WITHOUT, ids=range(len(WITHOUT)))
def test_what_cannot_be_compared_says_nothing(text: str, row_line: int | None, line: int) -> None:
    assert checked(text, row_line) == [(line, None)]


def test_a_row_of_a_later_line_leaves_assertions_compared() -> None:
    assert checked(SYN + state("0.100000") + "// asserts tcpi_unacked == 0\n", 3) == [(2, True)]


@pytest.mark.parametrize("recording", ["", "// asserts tcpi_unacked == 0\n", SYN + "// asserts tcpi_snd_cwnd == 4\n"])
def test_without_its_recording_nothing_is_compared(recording: str) -> None:
    script = SYN + "// asserts tcpi_snd_cwnd == 4\n"
    assert [(it.line, it.holds) for it in check_assertions(script, recording, None, 1460)] == [(2, None)]


RECORDS = """#!/bin/sh
printf '%s\\n' "$@" > words
cat > given
cat recording
"""


@pytest.fixture
def recorder(programs: Path, tmp_path: Path) -> Path:
    """The programs, and one in the place of pdrecord that writes what a file says."""
    folder = tmp_path / "programs"
    folder.mkdir()
    for program in programs.iterdir():
        (folder / program.name).symlink_to(program.resolve())
    (folder / "pdrecord").write_text(RECORDS)
    (folder / "pdrecord").chmod(0o755)
    return folder


def test_run_tells_what_does_not_hold_and_counts_it_by_itself(recorder: Path, tmp_path: Path, call: Call) -> None:
    script = OPEN + "// asserts tcpi_snd_cwnd == 4\n// asserts tcpi_snd_cwnd == 5\n// asserts tcpi_unacked == 0\n"
    write(tmp_path / "in", a=script.encode())
    (tmp_path / "in/pdsuite.toml").write_text("root = true\nwscale = 3\n")
    states = [it + state("0.100000", "FlightSize:9") for it in OPEN.splitlines(keepends=True)]
    comments = script.removeprefix(OPEN)
    (tmp_path / "recording").write_text("".join(states) + comments)
    called = call(recorder, "run", "in")
    assert (called.status, called.rows, called.totals) == (0, [], {"pass": 1})
    assert called.err.splitlines() == [
        "in/a.pkt: line 9 asserts tcpi_snd_cwnd == 5: cwnd is 4000, and SMSS 1000",
        "in/a.pkt: line 10 asserts tcpi_unacked == 0: FlightSize is 9",
        "assertions 3 hold 1 don't hold 2 not compared 0",
    ]
    assert (tmp_path / "words").read_text() == "--trace\n--settings\nwscale = 3\n"
    assert (tmp_path / "given").read_text() == script


def test_a_program_that_fails_or_is_not_there_is_told_of(recorder: Path, tmp_path: Path, call: Call) -> None:
    write(tmp_path / "in", a=(OPEN + "// asserts tcpi_unacked == 0\n").encode(), b=OPEN.encode())
    (recorder / "pdrecord").write_text("#!/bin/sh\necho 'pdrecord: 19 OutOfMemory' >&2\nexit 2\n")
    called = call(recorder, "run", "in")
    assert called.status == 0
    assert called.err.splitlines() == [
        "pdsuite: pdrecord: 19 OutOfMemory; in/a.pkt isn't recorded",
        "assertions 1 hold 0 don't hold 0 not compared 1",
    ]
    os.remove(recorder / "pdrecord")
    called = call(recorder, "run", "in")
    assert called.status == 0
    assert called.err.splitlines() == [
        f"pdsuite: {recorder}/pdrecord: no program (PDSUITE_PROGRAMS names the folder); nothing is recorded",
        "assertions 1 hold 0 don't hold 0 not compared 1",
    ]
