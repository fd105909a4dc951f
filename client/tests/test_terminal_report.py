"""Terminal reports on watched scripts: a line for a folder that moved, a few rows of many, and lines that fit."""

import fcntl
import os
import pty
import re
import select
import signal
import struct
import subprocess
import termios
from collections.abc import Iterator, Mapping
from contextlib import contextmanager
from pathlib import Path

import pytest

from pdsuite.compare.comparison import ComparedScript, ComparisonKind
from pdsuite.compare.divergence import Divergence, PlayedEvent
from pdsuite.programs.verdict import Row, Verdict
from pdsuite.run.outcomes import ScriptOutcome
from pdsuite.scripts.text import make_newline_ended_text_within_limits
from pdsuite.watch.folder_moves import folder_moves_between
from pdsuite.watch.plan_changes import WantedScript
from pdsuite.watch.terminal_report import TerminalReport
from tests.helpers import HANGS, PASSES, TOP, write
from tests.watch_process import Watching

STATE = (
    "state: ESTABLISHED una:1 next:1001 top:1001 end:1001 cwnd:4000 ssthresh:1073741824 rwnd:32896 FlightSize:1000 "
    "DupAcks:0 RTO:1.000000 expiry:1.200000 recovery:none"
)
PACKET = "actual packet: +0 > S. 0:0(0) ack 1 win 65535 <mss 1460,nop,nop,sackOK,nop,wscale 7> // 0.100000"
PASS = Row(Verdict.PASS, 3)
FAIL = Row(Verdict.FAIL, 2, "seq")
Report = dict[str, ScriptOutcome]


def report(row: Row, *paths: str) -> Report:
    """A report with this row of each script."""
    reported = ("the packet has other octets", (PACKET, STATE)) if row is FAIL else ("", ())
    return {path: ScriptOutcome(path, (), row, None, *reported) for path in paths}


def texts(**texts: bytes) -> Mapping[str, WantedScript]:
    return {
        path.replace("__", "/"): WantedScript((), make_newline_ended_text_within_limits(text))
        for path, text in texts.items()
    }


def texts_of(outcomes: Report) -> Mapping[str, WantedScript]:
    """A text for each script that only its name decides."""
    return {
        path: WantedScript((), make_newline_ended_text_within_limits(path.split("/")[-1].encode())) for path in outcomes
    }


def live(width: int = 80) -> TerminalReport:
    return TerminalReport(lambda: width, "pdsuite run t")


def shown(before: Report, after: Report, width: int = 80) -> list[str]:
    """The lines of a report that follows another."""
    news = live(width)
    moves = news.folder_moves_if_report_shows_them(before, after, texts_of(before), texts_of(after))
    text = news.render_changed_and_gone_rows(before, after, moves).append_text(
        news.changed_explanations(before, after, moves)
    )
    return text.append_text(news.totals_line(after, 0.01)).text_without_styles.splitlines()


def names(count: int, folder: str = "t") -> list[str]:
    return [f"{folder}/s{number:03}.pkt" for number in range(count)]


def test_a_state_is_broken_at_blanks_and_a_packet_is_not_broken() -> None:
    lines = live().first_report(report(FAIL, "a.pkt"), False, 0.01).text_without_styles.splitlines()
    assert lines[0] == "a.pkt:2: fail seq: the packet has other octets"
    assert lines[1] == f"  {PACKET}"
    assert all(len(it) < 80 for it in lines[2:]) and len(lines) == 6
    assert " ".join(it.strip() for it in lines[2:5]) == STATE
    assert [it[:4] for it in lines[2:5]] == ["  st", "    ", "    "]


def test_a_reason_is_broken_at_blanks_and_a_short_line_stays() -> None:
    words = "reason: all that is queued was sent, up to 1001, and only the timer sends the oldest again (RFC 6298)"
    reported = (words, "rule: a command", f"{'x' * 100} y")
    outcome = ScriptOutcome("a.pkt", (), FAIL, None, "so it is", reported)
    assert live().first_report({"a.pkt": outcome}, False, 0.01).text_without_styles.splitlines()[1:-1] == [
        "  reason: all that is queued was sent, up to 1001, and only the timer sends the",
        "    oldest again (RFC 6298)",
        "  rule: a command",
        f"  {'x' * 100} y",
    ]


def test_the_states_of_two_senders_are_broken_at_blanks_and_packets_are_not() -> None:
    state = "ESTABLISHED una:1 next:6001 top:6001 end:20001 cwnd:4000 ssthresh:2000 DupAcks:2"
    event = PlayedEvent(f"+0 > . 1:1001(1000) ack 1 <nop,nop,{'sack 1:2,' * 6}eol>", "0.310000", state)
    parting = Divergence(event, None, state, f"{state} recovery:none")
    outcome = ScriptOutcome("a.pkt", (), PASS, None, "", ())
    lines = (
        live()
        .turned_entries([ComparedScript(0, ComparisonKind.OTHERWISE, outcome, outcome, parting)])
        .text_without_styles.splitlines()
    )
    assert f"    before: {event}" in lines
    assert lines[-4:] == [
        "    state of the sender before: ESTABLISHED una:1 next:6001 top:6001 end:20001",
        "      cwnd:4000 ssthresh:2000 DupAcks:2",
        "    state of the sender after:  ESTABLISHED una:1 next:6001 top:6001 end:20001",
        "      cwnd:4000 ssthresh:2000 DupAcks:2 recovery:none",
    ]


def test_totals_have_no_zeros_and_fit() -> None:
    outcomes = report(PASS, *names(123))
    assert live().totals_line(outcomes, 0.5).text_without_styles == "total 123 pass 123 in 0.50 s\n"
    verdicts: tuple[Verdict, ...] = tuple(Verdict)
    for number, verdict in enumerate(verdicts):
        outcomes |= report(Row(verdict, 1, "seq"), *names(100 + number, verdict.value))
    assert live().totals_line(outcomes, 0.5).text_without_styles.splitlines() == [
        "total 844 pass 223 fail 101 syntax 102 unsupported 103 limit 104 error 105 not",
        "run 106 in 0.50 s",
    ]
    assert (
        live().totals_line(report(Row(Verdict.PASS, 0), "a.pkt"), 0).text_without_styles
        == "total 1 pass 1 warnings 1 in 0.00 s\n"
    )


def test_a_rule_with_the_time_of_day_goes_across() -> None:
    line = live(60).time_of_day_head_if_any().text_without_styles
    assert re.fullmatch(r"\u2500\u2500 \d\d:\d\d:\d\d \u2500{47}\n", line)


def test_a_terminal_without_columns_has_a_few() -> None:
    for width in (0, 1, 2):
        lines = live(width).first_report(report(FAIL, "a.pkt"), False, 0.01).text_without_styles.splitlines()
        assert (
            lines[2] == "  state: ESTABLISHED" and len(live(width).time_of_day_head_if_any().text_without_styles) == 21
        )


def test_of_many_that_turn_ten_are_shown_then_how_many_more_and_the_command() -> None:
    lines = shown(report(PASS, *names(400)), report(FAIL, *names(400)))
    assert lines[:11] == [*(f"t/s{number:03}.pkt:2: fail seq" for number in range(10)), "and 390 more"]
    assert lines[11].startswith("t/s000.pkt:2: fail seq: the packet")
    assert sum(": fail seq: the packet" in it for it in lines) == 10
    assert lines[-2:] == ["390 more: pdsuite run t", "total 400 fail 400 in 0.01 s"]
    assert len(lines) == 11 + 10 * 5 + 2
    lines = shown(report(FAIL, *names(400)), report(PASS, *names(400)))
    assert lines[9:] == ["t/s009.pkt: pass 3", "and 390 more", "total 400 pass 400 in 0.01 s"]
    lines = shown(report(PASS, *names(400)), report(PASS, *names(388)))
    assert lines[9:] == ["t/s397.pkt: gone", "and 2 more", "total 388 pass 388 in 0.01 s"]


def test_of_ten_that_turn_all_are_shown() -> None:
    lines = shown(report(PASS, *names(10)), report(FAIL, *names(10)))
    assert not any("more" in it for it in lines) and len(lines) == 10 + 10 * 5 + 1


def test_a_folder_that_moved_is_one_line() -> None:
    others = report(FAIL, "t/x.pkt")
    before = report(PASS, *names(100, "t/g003")) | report(FAIL, "t/g003/in/f.pkt") | others
    after = report(PASS, *names(100, "t/renamed")) | report(FAIL, "t/renamed/in/f.pkt") | others
    assert shown(before, after) == [
        "t/g003/ moved to t/renamed/: 101 scripts, same verdicts",
        "total 102 pass 100 fail 2 in 0.01 s",
    ]
    assert shown(report(PASS, "a/b.pkt"), report(PASS, "c/b.pkt"))[0] == "a/ moved to c/: 1 script, same verdict"


def test_of_a_folder_that_moved_rows_that_differ_are_shown() -> None:
    before = report(PASS, *names(3, "a"))
    after = report(PASS, *names(2, "b")) | report(FAIL, "b/s002.pkt")
    lines = shown(before, after)
    assert lines[:2] == ["a/ moved to b/: 3 scripts, 1 with another row", "b/s002.pkt:2: fail seq"]
    assert lines[2].startswith("b/s002.pkt:2: fail seq: the packet") and len(lines) == 8


def test_of_a_folder_that_moved_another_line_is_another_row() -> None:
    lines = shown(report(FAIL, "a/x.pkt"), report(Row(Verdict.FAIL, 3, "seq"), "b/x.pkt"))
    assert lines[:2] == ["a/ moved to b/: 1 script, 1 with another row", "b/x.pkt:3: fail seq"]


def test_a_line_that_fails_as_before_is_shown_where_it_has_another_text() -> None:
    before, after = ({"x.pkt": ScriptOutcome("x.pkt", (), FAIL, it)} for it in (b"+0 close(4) = 7", b"+0 close(4) = 8"))
    assert shown(before, before) == ["total 1 fail 1 in 0.01 s"]
    assert shown(before, after) == [
        "x.pkt:2: fail seq",
        "x.pkt:2: fail seq",
        "  +0 close(4) = 8",
        "total 1 fail 1 in 0.01 s",
    ]


MOVES = [
    (["a/x", "a/in/y"], ["b/x", "b/in/y"], [("a", "b", 2)]),
    (["a/in/x", "a/z"], ["b/in/x", "a/z"], [("a/in", "b/in", 1)]),
    (["a/in/x"], ["b/in/x", "b/z"], [("a", "b", 1)]),
    (["a/in/x", "b/z"], ["b/in/x", "b/z"], [("a/in", "b/in", 1)]),
    (["a/x", "a/y"], ["b/x", "a/y"], []),
    (["a/x", "b/y"], ["b/x", "b/y"], []),
    (["a/x", "b/x"], ["c/x", "d/x"], []),
    (["t/a/x", "t/b/x"], ["u/a/x", "u/b/x"], [("t", "u", 2)]),
    (["t/a/x", "t/b/y"], ["u/a/x", "v/b/y"], [("t", "u", 1), ("t", "v", 1)]),
    (["x", "a/y"], ["b/x", "y"], []),
    (["a/x"], ["b/x", "b/y"], []),
    (["a/x"], ["a/x"], []),
]


@pytest.mark.parametrize(("old", "new", "wanted"), MOVES, ids=range(len(MOVES)))
def test_which_folders_moved(old: list[str], new: list[str], wanted: list[tuple[str, str, int]]) -> None:
    before, after = report(PASS, *old), report(PASS, *new)
    found = folder_moves_between(before, after, texts_of(before), texts_of(after))
    assert [(it.old, it.new, len(it.scripts)) for it in found] == wanted


def test_a_folder_with_other_texts_did_not_move() -> None:
    before, after = report(PASS, "a/x"), report(PASS, "b/x")
    assert folder_moves_between(before, after, texts(a__x=b"one"), texts(b__x=b"two")) == []
    assert len(folder_moves_between(before, after, texts(a__x=b"one"), texts(b__x=b"one"))) == 1
    assert len(folder_moves_between(before, after, {}, {})) == 1


class OnTerminal:
    """A `pdsuite watch` whose output is a terminal of 80 columns, and what that has shown."""

    def __init__(self, folder: Path, programs: Path, *words: str) -> None:
        self._near, far = pty.openpty()
        fcntl.ioctl(far, termios.TIOCSWINSZ, struct.pack("HHHH", 24, 80, 0, 0))
        environment = {**os.environ, "PDSUITE_PROGRAMS": str(programs), "TERM": "xterm", "NO_COLOR": "1"}
        command: list[str | Path] = [TOP / "pdsuite", "watch", *words]
        self._process = subprocess.Popen(command, cwd=folder, env=environment, stdout=far, stderr=far)
        os.close(far)
        self._octets = b""
        self._taken = 0

    def __enter__(self) -> "OnTerminal":
        return self

    def __exit__(self, *error: object) -> None:
        self._process.kill()
        self._process.wait()
        os.close(self._near)

    @contextmanager
    def stopped(self) -> Iterator[None]:
        """Has it see nothing of what happens in the meantime but the end."""
        self._process.send_signal(signal.SIGSTOP)
        yield
        self._process.send_signal(signal.SIGCONT)

    def wait_for(self, words: str) -> list[str]:
        """Waits until words are shown; the lines up to there since those that were waited for before."""
        while words not in (shown := self._shown()):
            assert select.select([self._near], [], [], HANGS)[0], f"{words!r} didn't come, but {shown!r}"
            self._octets += os.read(self._near, 65_536)
        before = shown.partition(words)[0]
        self._taken += len(before) + len(words)
        return before.split("\n")

    def _shown(self) -> str:
        """The text since the last wait, without moves of the cursor; where the last line is erased, another begins."""
        text = self._octets.decode(errors="ignore").replace("\x1b[2K", "\n").replace("\r", "")
        return re.sub(r"\x1b\[[0-9;?]*[A-Za-z]", "", text)[self._taken :]


def test_on_a_terminal_a_save_begins_with_the_time_of_day(fake_program: Path, tmp_path: Path) -> None:
    write(tmp_path / "t", **{f"s{number:02}": PASSES for number in range(30)})
    words = ("--strict", "--only", "s*", "--settings", "mss = 1000", "t")
    with OnTerminal(tmp_path, fake_program, *words) as terminal:
        terminal.wait_for("total 30 pass 30 in ")
        block = f"row fail 2 seq\n{PACKET}\n{STATE}\n".encode()
        beside = tmp_path / "beside"
        write(beside, **{f"s{number:02}": block for number in range(30)})
        for path in beside.iterdir():
            os.utime(path, (1, 1))  # nobody writes them any more
        with terminal.stopped():
            (tmp_path / "t").rename(tmp_path / "away")
            beside.rename(tmp_path / "t")
        lines = terminal.wait_for("total 30 fail 30 in ")
        rules = [it for it in lines if re.fullmatch(r"\u2500\u2500 \d\d:\d\d:\d\d \u2500+", it)]
        assert rules and all(len(it) < 80 or it.startswith(f"  {PACKET[:9]}") for it in lines)
        command = "pdsuite run --strict --only 's*' --settings 'mss = 1000' t"
        assert f"20 more: {command}" in lines and "and 20 more" in lines
        assert sum(": fail seq: so it is" in it for it in lines) == 10
        (tmp_path / "t").rename(tmp_path / "u")
        terminal.wait_for("t: error: No such file or directory\n")


def test_what_no_terminal_shows_is_whole(fake_program: Path, tmp_path: Path) -> None:
    write(tmp_path / "t/in", **{f"s{number:02}": PASSES for number in range(30)})
    with Watching(tmp_path, fake_program, "t") as watching:
        (tmp_path / "t/in").rename(tmp_path / "t/out")
        watching.await_out("t/in/s29.pkt: gone\n")
        watching.await_out("total 30 pass 30 fail 0 syntax 0 unsupported 0 limit 0 error 0 not run 0 in ", 2)
        assert watching.out.count(": gone\n") == 30 and watching.out.count(": pass 1\n") == 30
        assert "moved" not in watching.out and "\u2500" not in watching.out
