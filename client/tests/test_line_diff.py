"""The line diff of a script that fails: the recording of its inputs beside what it expects."""

from pathlib import Path

import pytest

from pdsuite.packetdrill import alignment
from pdsuite.packetdrill.alignment import Fields, best_sent_place_by_awaited_place
from pdsuite.packetdrill.columns import Mark
from pdsuite.programs.recorder import Recording
from pdsuite.programs.verdict import Row, Verdict
from pdsuite.reports.diff_text import line_diff_json_list_or_fault, line_diff_lines
from pdsuite.run.line_diff import LineDiff, line_diff_from_recording_or_its_fault
from tests.helpers import OPENED, Call, write

STATE = "ESTABLISHED una:1"
OPENED_RECORDED = "".join(
    f"{line}\n//= at {at} {STATE}\n"
    for line, at in zip(
        OPENED.decode().replace("<...>", "win 65535 <mss 1460>").splitlines(),
        ["0.000000"] * 3 + ["0.100000"] * 2 + ["0.200000"] * 2,
    )
)
SENT = "+0 > P. 1:1001(1000) ack 1 win 65535"
WRITE = "+0 write(4, ..., 1000) = 1000"


def met(script: str, row: Row, *recorded: tuple[str, str], block_lines: tuple[str, ...] = ()) -> LineDiff:
    """The line diff of a script after the opening, where these events were recorded, each at its moment."""
    text = OPENED_RECORDED + "".join(f"{line}\n//= at {at} {STATE}\n" for line, at in recorded)
    return line_diff_from_recording_or_its_fault(row, block_lines, OPENED.decode() + script, Recording(text), ())


def shown(differences: LineDiff) -> list[str]:
    """The lines after the opening."""
    return list(line_diff_lines(differences))[8:]


def test_all_that_is_met_as_it_is_written_is_one_line_each() -> None:
    found = met(
        f"{WRITE}\n+0 > P. 1:1001(1000) ack 1\n", Row(Verdict.FAIL, 20, "seq"), (WRITE, "0.200000"), (SENT, "0.200000")
    )
    assert [it.differs for it in found.lines] == [False] * 9
    assert shown(found) == [f"    8   {WRITE}", "    9   +0 > P. 1:1001(1000) ack 1"]


@pytest.mark.parametrize("most", [alignment._MOST, 3])
def test_packets_that_cannot_meet_stand_apart_however_many_there_are(
    most: int, monkeypatch: pytest.MonkeyPatch
) -> None:
    monkeypatch.setattr(alignment, "_MOST", most)
    each = [Fields(frozenset("."), (number, number + 1), 1, None, None) for number in range(3)]
    assert best_sent_place_by_awaited_place(each, each[:2], lambda one, other: one > 0) == {1: 1}


def test_where_another_came_it_stands_below_and_the_fields_that_differ_are_marked() -> None:
    found = met(
        f"{WRITE}\n+0 > . 1:501(500) ack 1\n{WRITE}\n",
        Row(Verdict.FAIL, 9, "flags"),
        (WRITE, "0.200000"),
        (SENT, "0.200000"),
        (WRITE, "0.200000"),
    )
    assert shown(found) == [
        f"    8   {WRITE}",
        "    9 - +0 > .  1:501(500)   ack 1",
        "      + +0 > P. 1:1001(1000) ack 1 win 65535 // 0.200000",
        "      ?    ^^^^ ^^^^^^^^^^^^",
        f"   10   {WRITE}",
    ]
    assert [it.text for it in found.lines[8].met if it.mark is Mark.DIFFERS] == ["> P.", "1:1001(1000)"]


def test_a_packet_for_which_nothing_was_sent_and_one_that_no_line_asks_for_are_named() -> None:
    script = f"{WRITE}\n+0 > P. 1:1001(1000) ack 1\n+0 > P. 1001:2001(1000) ack 1\n{WRITE}\n"
    again = "+0 > . 1:1001(1000) ack 1 win 65535"
    found = met(
        script,
        Row(Verdict.FAIL, 10, "missing"),
        (WRITE, "0.200000"),
        (SENT, "0.200000"),
        (WRITE, "0.200000"),
        (again, "1.200000"),
    )
    assert shown(found) == [
        f"    8   {WRITE}",
        "    9   +0 > P. 1:1001(1000) ack 1",
        "   10 - +0 > P. 1001:2001(1000) ack 1",
        "      + nothing was sent",
        f"   11   {WRITE}",
        f"      + {again} // 1.200000 (asked for by no line)",
    ]
    assert line_diff_json_list_or_fault(found)[-3:] == [
        {"line": 10, "differs": True, "event": "+0 > P. 1001:2001(1000) ack 1", "met_by": None},
        {"line": 11, "differs": False, "event": WRITE},
        {"line": None, "differs": True, "met_by": f"{again} // 1.200000"},
    ]


def test_lines_that_a_script_lacks_are_told_and_the_next_ones_are_met_by_their_own() -> None:
    sent = [f"+0 > . {first}:{first + 1000}(1000) ack 1 win 65535" for first in (1, 1001, 2001)]
    last = "+0 > P. 3001:4001(1000) ack 1 win 65535"
    script = f"{WRITE}\n+0 > . 2001:3001(1000) ack 1\n+0 > P. 3001:4001(1000) ack 1\n"
    packets = [(it, "0.200000") for it in (*sent, last)]
    found = met(script, Row(Verdict.FAIL, 9, "seq"), (WRITE, "0.200000"), *packets)
    assert shown(found) == [
        f"    8   {WRITE}",
        f"      + {sent[0]} // 0.200000 (asked for by no line)",
        f"      + {sent[1]} // 0.200000 (asked for by no line)",
        "    9   +0 > . 2001:3001(1000) ack 1",
        "   10   +0 > P. 3001:4001(1000) ack 1",
    ]
    keyed = [it["line"] for it in line_diff_json_list_or_fault(found) if isinstance(it, dict)]
    assert keyed[-4:] == [None, None, 9, 10]


def test_a_line_that_is_too_many_is_met_by_nothing_and_one_that_differs_stands_beside_its_own() -> None:
    sent = "+0 > . 1:1001(1000) ack 1 win 65535", "+0 > P. 1001:2001(1000) ack 1 win 65535"
    script = f"{WRITE}\n+0 > R 7:7(0)\n+0 > . 1:1001(1000) ack 1\n+0 > . 1001:2001(1000) ack 1\n"
    found = met(script, Row(Verdict.FAIL, 9, "flags"), (WRITE, "0.200000"), *((it, "0.200000") for it in sent))
    assert shown(found) == [
        f"    8   {WRITE}",
        "    9 - +0 > R 7:7(0)",
        "      + nothing was sent",
        "   10   +0 > . 1:1001(1000) ack 1",
        "   11 - +0 > .  1001:2001(1000) ack 1",
        "      + +0 > P. 1001:2001(1000) ack 1 win 65535 // 0.200000",
        "      ?    ^^^^",
    ]


def test_a_call_with_another_answer_and_a_packet_at_another_time_are_marked() -> None:
    script = "+0 write(4, ..., 1000) = 500\n+0.5 > P. 1:1001(1000) ack 1\n"
    found = met(script, Row(Verdict.FAIL, 8, "result"), (WRITE, "0.200000"), (SENT, "0.200000"))
    assert shown(found) == [
        "    8 - +0 write(4, ..., 1000) = 500",
        f"      + {WRITE}",
        "      ?                          ^^^^",
        "    9 - +0.5 > P. 1:1001(1000) ack 1",
        "      + +0   > P. 1:1001(1000) ack 1 win 65535 // 0.200000",
        "      ? ^^",
    ]


@pytest.mark.parametrize(
    ("moment", "is_in_time"),
    [("0.695999", False), ("0.696000", True), ("0.697000", True), ("0.704000", True), ("0.704001", False)],
)
def test_a_packet_may_come_so_much_before_its_first_moment_and_after_its_last(moment: str, is_in_time: bool) -> None:
    script = f"--tolerance_usecs=4000\n{WRITE}\n+0.5 > P. 1:1001(1000) ack 1\n"
    sent = f"{SENT.replace('+0 ', f'+{float(moment) - 0.2:.6f} ')}"
    found = met(script, Row(Verdict.PASS, 9), (WRITE, "0.200000"), (sent, moment))
    assert found.lines[-1].differs is not is_in_time


def test_the_last_tolerance_of_a_header_counts() -> None:
    script = f"--tolerance_usecs=9000\n--tolerance_usecs=1000\n{WRITE}\n+0.5 > P. 1:1001(1000) ack 1\n"
    sent = SENT.replace("+0 ", "+0.502 ")
    found = met(script, Row(Verdict.FAIL, 11, "time"), (WRITE, "0.200000"), (sent, "0.702000"))
    assert found.lines[-1].differs


def test_what_is_not_recorded_says_why() -> None:
    found = line_diff_from_recording_or_its_fault(
        Row(Verdict.FAIL, 1, "result"), (), OPENED.decode(), Recording("", "a.pkt:9: it ends"), ()
    )
    assert list(line_diff_lines(found)) == ["line by line: not known, since it isn't recorded: a.pkt:9: it ends"]
    assert line_diff_json_list_or_fault(found) == "a.pkt:9: it ends"


def test_by_the_programs_a_script_is_shown_to_its_end(recording_programs: Path, tmp_path: Path, call: Call) -> None:
    write(
        tmp_path,
        a=f"{OPENED.decode()}{WRITE}\n+0 > P. 1:501(500) ack 1\n{WRITE}\n+0 > P. 501:1501(1000) ack 1\n".encode(),
    )
    called = call(recording_programs, "run", "--full-diff", ".")
    lines = called.out.splitlines()
    begin = lines.index("  line by line, to the end (- as the script has it, + as it came):")
    assert lines[begin + 8 : begin + 16] == [
        f"      8   {WRITE}",
        "      9 - +0 > P. 1:501(500)   ack 1",
        "        + +0 > P. 1:1001(1000) ack 1 win 65535 // 0.200000",
        "        ?         ^^^^^^^^^^^^",
        f"     10   {WRITE}",
        "     11 - +0 > P. 501:1501(1000)  ack 1",
        "        + +0 > P. 1001:2001(1000) ack 1 win 65535 // 0.200000",
        "        ?         ^^^^^^^^^^^^^^^",
    ]
