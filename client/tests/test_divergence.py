"""Two recordings beside each other, and two senders' results: no process is started."""

from pathlib import Path

from pdsuite.compare.comparison import (
    ComparedScript,
    ComparisonKind,
    SenderResults,
    compare_results,
    counts_by_folder_and_total,
)
from pdsuite.compare.divergence import PlayedEvent, first_divergence_in_event_or_time, parse_played_events
from pdsuite.programs.batch_protocol import ProgramAnswer
from pdsuite.programs.recorder import Recording, recording_cases, recording_from_answer
from pdsuite.programs.verdict import Row, Verdict
from pdsuite.reports.comparison import compared_script_lines
from pdsuite.run.outcomes import ScriptOutcome

HEAD = "// what it shows\n+0 write(4, ..., 3000) = 3000\n//= at 0.200000 ESTABLISHED cwnd:4000 DupAcks:2\n"
FIRST = "+0 > . 1:1001(1000) ack 1\n//= at 0.200000 ESTABLISHED cwnd:4000 DupAcks:2\n"
SECOND = "+0 > . 1001:2001(1000) ack 1\n//= at 0.200000 ESTABLISHED cwnd:4000 DupAcks:2\n"
LATE = "+0.1 > . 1001:2001(1000) ack 1\n//= at 0.300000 ESTABLISHED cwnd:4000 DupAcks:2\n"
PASS = Row(Verdict.PASS, 3)
FAIL = Row(Verdict.FAIL, 7, "seq")


def test_the_events_of_a_recording_have_their_moments_and_states() -> None:
    assert list(parse_played_events(HEAD + FIRST)) == [
        PlayedEvent("+0 write(4, ..., 3000) = 3000", "0.200000", "ESTABLISHED cwnd:4000 DupAcks:2"),
        PlayedEvent("+0 > . 1:1001(1000) ack 1", "0.200000", "ESTABLISHED cwnd:4000 DupAcks:2"),
    ]


def test_recordings_part_at_the_first_packet_that_differs() -> None:
    parting = first_divergence_in_event_or_time(HEAD + FIRST + SECOND, HEAD + SECOND + FIRST)
    assert parting is not None and parting.before is not None and parting.after is not None
    assert str(parting.before) == "+0 > . 1:1001(1000) ack 1 // 0.200000"
    assert str(parting.after) == "+0 > . 1001:2001(1000) ack 1 // 0.200000"
    assert parting.state_before == parting.state_after == "ESTABLISHED cwnd:4000 DupAcks:2"


def test_recordings_part_where_a_packet_leaves_later() -> None:
    parting = first_divergence_in_event_or_time(HEAD + SECOND, HEAD + LATE)
    assert parting is not None and parting.after is not None and parting.after.moment == "0.300000"


def test_recordings_part_where_one_ends() -> None:
    parting = first_divergence_in_event_or_time(HEAD + FIRST, HEAD)
    assert parting is not None and parting.before is not None and parting.after is None


def test_the_states_before_may_differ_and_a_state_alone_parts_nothing() -> None:
    other = HEAD.replace("cwnd:4000", "cwnd:2000")
    assert first_divergence_in_event_or_time(HEAD + FIRST, other + FIRST) is None
    parting = first_divergence_in_event_or_time(HEAD + FIRST, other)
    assert parting is not None
    assert (parting.state_before, parting.state_after) == (
        "ESTABLISHED cwnd:4000 DupAcks:2",
        "ESTABLISHED cwnd:2000 DupAcks:2",
    )
    assert first_divergence_in_event_or_time(HEAD.replace("what it shows", "x") + FIRST, HEAD + FIRST) is None


def outcome(path: str, row: Row) -> ScriptOutcome:
    """The outcome of a script that has this row."""
    reported = () if row is PASS else ("state: x",)
    return ScriptOutcome(path, (), row, None, "" if row is PASS else "other octets", reported)


def compared_by(before: Row, after: Row, one: Recording, other: Recording) -> ComparedScript:
    """A script under two senders."""
    (it,) = compare_results(
        SenderResults({4: outcome("a.pkt", before)}, {}, {4: one}),
        SenderResults({4: outcome("a.pkt", after)}, {}, {4: other}),
    )
    return it


def test_a_script_turns_whose_row_is_another() -> None:
    it = compared_by(PASS, FAIL, Recording(HEAD + FIRST), Recording(HEAD + SECOND))
    assert it.kind is ComparisonKind.TURNED and it.differs
    assert compared_script_lines(it) == [
        "before: pass 3",
        "after: line 7: fail seq: other octets",
        "  state: x",
        "the first event that differs:",
        "  before: +0 > . 1:1001(1000) ack 1 // 0.200000",
        "  after:  +0 > . 1001:2001(1000) ack 1 // 0.200000",
        "  state:  ESTABLISHED cwnd:4000 DupAcks:2",
    ]


def test_a_script_whose_row_stays_may_be_played_otherwise() -> None:
    it = compared_by(PASS, PASS, Recording(HEAD + FIRST), Recording(HEAD))
    assert it.kind is ComparisonKind.OTHERWISE and it.differs
    assert compared_script_lines(it)[1:3] == [
        "  before: +0 > . 1:1001(1000) ack 1 // 0.200000",
        "  after:  nothing more",
    ]


def test_a_script_that_only_one_sender_records_is_played_otherwise() -> None:
    it = compared_by(PASS, PASS, Recording(HEAD), Recording("", "pdrecord: 3 TooMany"))
    assert it.kind is ComparisonKind.OTHERWISE
    assert compared_script_lines(it) == ["before: recorded", "after: not recorded: pdrecord: 3 TooMany"]


def test_a_script_that_stays_is_as_before_or_not_compared() -> None:
    assert compared_by(FAIL, FAIL, Recording(HEAD), Recording(HEAD)).kind is ComparisonKind.SAME
    assert compared_by(FAIL, FAIL, Recording("", "x"), Recording("", "x")).kind is ComparisonKind.UNKNOWN


def test_each_folder_is_counted_and_all_last() -> None:
    before = SenderResults({0: outcome("a.pkt", PASS), 1: outcome("b/c.pkt", PASS), 2: outcome("b/d.pkt", PASS)})
    after = SenderResults({0: outcome("a.pkt", PASS), 1: outcome("b/c.pkt", FAIL), 2: outcome("b/d.pkt", PASS)})
    *folders, total = counts_by_folder_and_total(compare_results(before, after))
    assert [f"{it.name}: {it.counts_in_words}" for it in folders] == [
        ".: 1 script, 0 turned, 0 played otherwise, 0 as before, 1 not compared",
        "b: 2 scripts, 1 turned, 0 played otherwise, 0 as before, 1 not compared",
    ]
    assert f"{total.name} {total}" == "total 3 turned 1 played otherwise 0 as before 0 not compared 2"


def test_each_script_is_recorded_under_its_settings_by_one_build() -> None:
    two = (("min_rto_us", 1000), ("sack", False))
    build = recording_cases(Path("/tree"), [((), b"x\n"), (two, b"y\n")])
    assert (build.tree, build.program, build.words) == (Path("/tree"), "pdrecord", ("--trace",))
    assert [(it.words, it.given) for it in build.cases] == [
        ((), b"x\n"),
        (("--settings", "min_rto_us = 1000\nsack = false"), b"y\n"),
    ]


def test_a_start_of_pdrecord_is_a_recording_or_says_why_not() -> None:
    assert recording_from_answer(ProgramAnswer(b"+0 a\n", b"")) == Recording("+0 a\n")
    assert recording_from_answer(ProgramAnswer(b"", b"pdrecord: 3 X\n  more\n")) == Recording("", "pdrecord: 3 X")
    assert recording_from_answer(ProgramAnswer(b"", b"", "TooSlow: it took long")) == Recording(
        "", "TooSlow: it took long"
    )
