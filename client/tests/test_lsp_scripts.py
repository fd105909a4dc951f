"""Actions, diagnostics and hovers of the language server by rows, explanations and recordings, without a program."""

from typing import Any

import pytest

from pdsuite.lsp.actions import CodeAction, FailingScript, single_whole_line_edit_to_text, leads_past_failing_line
from pdsuite.lsp.actions import (
    actions_taking_actual_packet_or_result,
    commenting_out_actions,
    record_all_actions,
    actions_recording_from_failing_event_on,
)
from pdsuite.lsp.diagnostics import Diagnostic, diagnostics_of, with_unmatched_packets
from pdsuite.lsp.documents import Document
from pdsuite.lsp.hover import hover_of_event, strip_markdown
from pdsuite.lsp.packets_sent import event_lines_for_packets, parse_sent_packet, parse_sent_packets
from pdsuite.lsp.positions import DocumentLines
from pdsuite.packetdrill.layout import layout_of
from pdsuite.packetdrill.recorded import (
    last_script_input_due_before_moment,
    match_events,
    recorded_events_in,
    strip_trace,
    tolerance_from_header_or_settings,
)
from pdsuite.programs.verdict import Row, Verdict
from pdsuite.run.locate_row import character_index_at_escaped_line_column
from pdsuite.run.outcomes import ScriptOutcome
from pdsuite.scripts.expectation import Expectation

SCRIPT = """0 write(4, ..., 1500) = 1500 // two
+0 > . 1:1001(1000) ack 1
+0.1 < . 1:1(0) ack 1001 win 257
+0 > P. 1001:1501(500) ack 1
+0.1 > P. 1:2(1) ack 1
+0 close(4) = 0
"""
RECORDING = """+0 write(4, ..., 1500) = 1500 // two
//= at 0.000000 ESTABLISHED una:1 next:1001 cwnd:4000
+0 > . 1:1001(1000) ack 1 win 511
//= at 0.000000 ESTABLISHED una:1 next:1001 cwnd:4000
+0.1 < . 1:1(0) ack 1001 win 257
//= at 0.100000 ESTABLISHED una:1001 next:1501 cwnd:5000
+0 > P. 1001:1501(500) ack 1 win 511
//= at 0.100000 ESTABLISHED una:1001 next:1501 cwnd:5000 sent_by:line5
+0.1 close(4) = 0
//= at 0.200000 FIN-WAIT-1 una:1001 next:1502 cwnd:5000 expiry:1.2
+0 > F. 1501:1501(0) ack 1 win 511
//= at 0.200000 FIN-WAIT-1 una:1001 next:1502 cwnd:5000 expiry:1.2
"""
SENT = "+0   > P. 1:1001(1000) ack 1 win 511 // 0.200000"


def failing(text: str, row: Row, **cause: Any) -> FailingScript:
    """A script that doesn't pass."""
    return FailingScript(DocumentLines(text), layout_of(text), row, cause)


def test_packets_are_read_as_they_are_shown() -> None:
    sent = parse_sent_packet("+0.1~+0.3 > S. 0:0(0) ack 1 win 65535 <mss 1460,nop> // 1.500000")
    assert sent is not None and (sent.options, sent.win, sent.moment) == ("<mss 1460,nop>", "win 65535", 1_500_000)
    assert (
        parse_sent_packet("* > - 0:0(0)") is None and parse_sent_packet(None) is None and parse_sent_packets("x") == []
    )
    one = parse_sent_packet("* > R 1:1(0) // 0.000001")
    assert one is not None and one.text_without_time == "> R 1:1(0)"


def test_times_of_packets_count_from_one_another() -> None:
    shown = ["* > . 1:2(1) // 0.100000", "+0 > . 2:3(1) // 0.300000", "+0.2 > . 3:4(1) // 0.500000"]
    lines = event_lines_for_packets(parse_sent_packets(shown))
    assert [it.split(" >")[0] for it in lines] == ["*", "+0", "+0.2"]
    assert [it.split(" >")[0] for it in event_lines_for_packets(parse_sent_packets(shown[2:]))] == ["+0.2"]


@pytest.mark.parametrize(
    "event, after",
    [
        ("+0 > . 1:501(500) ack 1", "+0 > P. 1:1001(1000) ack 1"),
        ("+0 > P. 1:501(500) ack 2 win 7 <nop>", "+0 > P. 1:1001(1000) ack 1 win 511"),
        ("+0\t> P. 1:501 ( 500 ) <...>", "+0\t> P. 1:1001(1000) <...>"),
    ],
)
def test_only_written_fields_are_taken(event: str, after: str) -> None:
    text = f"// x\n{event} // y\n"
    (action, *_) = actions_taking_actual_packet_or_result(
        failing(text, Row(Verdict.FAIL, 2, "seq"), script_packet=event, actual_packet=SENT)
    )
    assert action.text == f"// x\n{after} // y\n"


def test_flags_in_another_order_stay() -> None:
    event, sent = "+0 > PF. 1:501(500) ack 1", SENT.replace("P.", "FP.")
    (action, *_) = actions_taking_actual_packet_or_result(
        failing(f"{event}\n", Row(Verdict.FAIL, 1, "seq"), script_packet=event, actual_packet=sent)
    )
    assert action.text == "+0 > PF. 1:1001(1000) ack 1\n"


def test_options_that_are_lacking_are_added() -> None:
    sent = "+0 > S. 0:0(0) ack 1 win 9 <mss 1460> // 0.100000"
    event = "+0 > S. 0:0(0) ack 1"
    (action, _) = actions_taking_actual_packet_or_result(
        failing(f"{event}\n", Row(Verdict.FAIL, 1, "options"), script_packet=event, actual_packet=sent)
    )
    assert action.text == "+0 > S. 0:0(0) ack 1 <mss 1460>\n"


def test_the_time_alone_is_offered_where_nothing_else_differs() -> None:
    row = Row(Verdict.FAIL, 1, "time")
    for event, title, after in [
        ("+0.1 > P. 1:1001(1000) ack 1", "Take the time at which it was sent", "+0 > P. 1:1001(1000) ack 1\n"),
        ("+0.1 > P. 1:501(500) ack 1", "Take the packet that was sent", "+0 > P. 1:1001(1000) ack 1\n"),
    ]:
        (action, _) = actions_taking_actual_packet_or_result(
            failing(f"{event}\n", row, script_packet=event, actual_packet=SENT)
        )
        assert (action.title, action.text) == (title, after)


def test_packets_before_the_awaited_one_are_inserted() -> None:
    event = "+0 > P. 4001:5001(1000) ack 1"
    unmatched = ["* > P. 3001:4001(1000) ack 1 win 5 // 0.200000", "+0 > P. 4001:5001(1000) ack 1 win 5 // 0.300000"]
    actual = "* > . 2001:3001(1000) ack 1 win 5 // 0.200000"
    text = f"0 a() = 1\r\n  {event}\r\n"
    cause_fields = {"script_packet": event, "actual_packet": actual, "untaken_packets": unmatched}
    first, _ = actions_taking_actual_packet_or_result(
        failing(text, Row(Verdict.FAIL, 2, "time"), unasked_packets=2, **cause_fields)
    )
    assert (first.title, first.shift) == ("Insert 2 packets that were sent before it", 2)
    assert first.text.split("\r\n")[1:3] == [
        "  * > . 2001:3001(1000) ack 1 win 5",
        "  * > P. 3001:4001(1000) ack 1 win 5",
    ]
    _, last = actions_taking_actual_packet_or_result(failing(text, Row(Verdict.FAIL, 2, "time"), **cause_fields))
    assert (last.title, last.shift) == ("Insert 3 packets that were sent before it", 3)


def test_before_an_event_that_follows_another_in_its_line_packets_are_inserted_without_an_indent() -> None:
    event = "+0 > P. 1001:2001(1000) ack 1"
    cause_fields = {"script_packet": event, "actual_packet": SENT, "untaken_packets": [], "unasked_packets": 1}
    first, _ = actions_taking_actual_packet_or_result(
        failing(f"  0 a() = 1 {event}\n", Row(Verdict.FAIL, 1, "seq"), **cause_fields)
    )
    assert first.text == f"  0 a() = 1 +0 > P. 1:1001(1000) ack 1 win 511\n{event}\n"


def test_a_result_is_taken() -> None:
    text = "0 a() = 1 (note)\n"
    (action,) = actions_taking_actual_packet_or_result(
        failing(text, Row(Verdict.FAIL, 1, "result"), call=text[:-1], actual_result="-1 EINVAL")
    )
    assert action.text == "0 a() = -1 EINVAL (note)\n"


@pytest.mark.parametrize(
    "text, line, after",
    [
        ("0 a() = 1\n+0 b() = 2\n", 2, "0 a() = 1\n// +0 b() = 2\n"),
        ("0 a(\n1) = 1\n", 1, "// 0 a(\n// 1) = 1\n"),
        ("0 a() = 1 +0 b() = 2", 1, "/* 0 a() = 1 */ +0 b() = 2"),
        ("bad", 1, "// bad"),
        ("\n", 1, "// \n"),
    ],
)
def test_a_line_is_switched_off(text: str, line: int, after: str) -> None:
    assert [it.text for it in commenting_out_actions(failing(text, Row(Verdict.FAIL, line, "result")))] == [after]


def test_an_action_leads_past_its_line() -> None:
    action, before = CodeAction("", "", "", 2), Row(Verdict.FAIL, 5, "seq")
    assert leads_past_failing_line(action, before, Row(Verdict.PASS, 9)) and leads_past_failing_line(
        action, before, Row(Verdict.LIMIT, 8)
    )
    assert not leads_past_failing_line(action, before, Row(Verdict.SYNTAX, 8))
    assert leads_past_failing_line(action, Row(Verdict.SYNTAX, 5), Row(Verdict.SYNTAX, 8))
    assert not leads_past_failing_line(action, before, Row(Verdict.FAIL, 7, "seq"))
    assert not leads_past_failing_line(action, before, Row(Verdict.ERROR, word="x"))


def test_a_recording_beside_its_script() -> None:
    recorded = recorded_events_in(RECORDING)
    events = layout_of(SCRIPT).packets_and_calls
    met = list(match_events(events, recorded, 4, 4_000))
    assert [None if it.recorded is None else it.recorded.moment for it in met] == [
        0,
        0,
        100_000,
        100_000,
        None,
        200_000,
    ]
    assert [it.after.state.name for it in met if it.after] == ["ESTABLISHED"] * 5 + ["FIN-WAIT-1"]
    assert recorded_events_in("0 a() = 1\n") == () and recorded_events_in("") == ()


def test_what_is_unmet_is_told_by_the_time_alone() -> None:
    events = layout_of(SCRIPT.replace("+0.1 > P. 1:2(1)", "* > P. 1:2(1)")).packets_and_calls
    met = list(match_events(events, recorded_events_in(RECORDING), 4, 0))
    assert met[4].recorded is None  # nothing left before the next input
    late = "0 a() = 1\n+0.1~+0.3 > . 1:2(1)\n+1 b() = 1\n"
    trace = "//= at {} CLOSED\n"
    recording = "+0 a() = 1\n{}+0.304 > . 1:2(1)\n{}+0.7 b() = 1\n{}".format(
        *(trace.format(it) for it in ("0.000000", "0.304000", "1.000000"))
    )
    for tolerance, is_met in [(4_000, True), (3_999, False)]:
        found = list(match_events(layout_of(late).packets_and_calls, recorded_events_in(recording), 1, tolerance))
        assert (found[1].recorded is not None) == is_met


def test_the_tolerance_is_the_last_of_the_header() -> None:
    assert tolerance_from_header_or_settings(layout_of("--tolerance_usecs=5\n--tolerance_usecs=7\n").items, 9) == 7
    assert tolerance_from_header_or_settings(layout_of("--other=5\n0 a() = 1").items, 9) == 9


def test_an_untaken_packet_left_after_the_input_that_sent_it_or_the_last_one_before_the_timer_did() -> None:
    layout = layout_of(SCRIPT)
    sent = [{"line": 3}, {"timer_us": 150_000}, {"timer_us": 200_000}, {"timer_us": 200_001}, {"timer_us": 0}, None]
    cause = {"untaken_packets": [*"abcdef"], "untaken_sent_by": sent}
    found = with_unmatched_packets(Diagnostic(layout.packets_and_calls[0].extent, 1, "", ""), layout, cause).related
    lines = DocumentLines(SCRIPT)
    places = [(lines.line_of(it.extent.start) + 1, it.message) for it in found]
    assert places == [
        (3, "untaken packet: a"),
        (3, "untaken packet: b"),
        (3, "untaken packet: c"),
        (6, "untaken packet: d"),
    ]
    assert last_script_input_due_before_moment(layout.packets_and_calls, 1) is layout.packets_and_calls[0]


def test_an_untaken_packet_has_the_rule_by_which_it_left_and_with_it_what_sent_it() -> None:
    layout = layout_of(SCRIPT)
    sent = [{"line": 3, "rule": "x", "rule_words": "old (RFC 1)"}, {"timer_us": 9, "rule": "y", "rule_words": "new"}]
    cause = {"untaken_packets": ["a", "b"], "untaken_sent_by": sent}
    found = with_unmatched_packets(Diagnostic(layout.packets_and_calls[0].extent, 1, "", ""), layout, cause).related
    assert [it.message for it in found] == [
        "untaken packet: a, sent by line 3: old (RFC 1)",
        "untaken packet: b, sent by the timer: new",
    ]


def test_hover_says_what_the_timer_sent() -> None:
    expiry = "+1 > . 1:1001(1000) ack 1\n"
    trace = "//= at 1.000000 ESTABLISHED una:1 prr_delivered:0 prr_out:1000 recovery:RFC6675 sent_by:timer\n"
    events, recorded = layout_of(expiry).packets_and_calls, recorded_events_in(expiry + trace)
    met = list(match_events(events, recorded, 1, 4_000))
    words = hover_of_event(events[0], 0, met, expiry + trace)
    assert "`> . 1:1001(1000) ack 1` was sent at 1.000000, by the timer\n" in words
    assert "prr_out        1000\n" in words


def test_hover_has_what_changed() -> None:
    recorded = recorded_events_in(RECORDING)
    events = layout_of(SCRIPT).packets_and_calls
    met = list(match_events(events, recorded, 4, 4_000))
    words = hover_of_event(events[2], events[2].item.start, met, RECORDING)
    assert "After it at 0.100000: ESTABLISHED\n```text\nuna   1001  was 1\nnext  1501  was 1001\n" in words
    assert "`> P. 1001:1501(500) ack 1 win 511` was sent at 0.100000, by line 3" in hover_of_event(
        events[3], 0, met, RECORDING
    )
    assert "Nothing was sent for it." in hover_of_event(events[4], 0, met, RECORDING)
    assert "FIN-WAIT-1, was ESTABLISHED" in hover_of_event(events[5], 0, met, RECORDING)
    assert "expiry  1.2  new" in hover_of_event(events[5], 0, met, RECORDING)
    assert "sent_by" not in hover_of_event(events[3], 0, met, RECORDING)
    assert strip_markdown("`> P.` was\n```text\nuna  1\n```\n**x**") == "> P. was\nuna  1\nx"


def test_a_script_is_recorded_from_a_line_on() -> None:
    row = Row(Verdict.FAIL, 5, "missing")
    packet = "+0.1 > P. 1:2(1) ack 1"
    each = list(actions_recording_from_failing_event_on(failing(SCRIPT, row, script_packet=packet), RECORDING))
    returned = actions_recording_from_failing_event_on(
        failing(SCRIPT.replace("\n", "\r\n"), row, script_packet=packet), RECORDING
    )
    assert [it.text for it in returned] == [it.text.replace("\n", "\r\n") for it in each]
    front = "".join(SCRIPT.splitlines(keepends=True)[:4])
    assert each[0].text == front + "+0.1 close(4) = 0\n+0 > F. 1501:1501(0) ack 1 win 511\n"
    assert each[1].text == front + "0.2 close(4) = 0\n+0 > F. 1501:1501(0) ack 1 win 511\n"
    (whole,) = record_all_actions(failing(SCRIPT.replace("\n", "\r\n"), row), RECORDING)
    assert "//=" not in whole.text and whole.text.count("\r\n") == 6
    assert strip_trace(RECORDING).count("\n") == 6


def test_packets_that_wait_come_first_in_a_recording_from_a_line_on() -> None:
    row = Row(Verdict.FAIL, 2, "result")
    text = "0 write(4, ..., 1500) = 1500 // two\n+0.1 close(4) = 1\n"
    recording = RECORDING.replace(
        "+0.1 < . 1:1(0) ack 1001 win 257\n//= at 0.100000 ESTABLISHED una:1001 next:1501 cwnd:5000\n", ""
    )
    each = list(actions_recording_from_failing_event_on(failing(text, row, call="+0.1 close(4) = 1"), recording))
    assert each[0].text.startswith("0 write(4, ..., 1500) = 1500 // two\n+0 > . 1:1001(1000)")


def test_nothing_is_recorded_from_the_first_event_on() -> None:
    row = Row(Verdict.FAIL, 1, "result")
    assert list(actions_recording_from_failing_event_on(failing(SCRIPT, row), RECORDING)) == []
    assert (
        list(actions_recording_from_failing_event_on(failing(SCRIPT, row), ""))
        == list(record_all_actions(failing(SCRIPT, row), ""))
        == []
    )


@pytest.mark.parametrize(
    "old, new",
    [
        ("a\nb\nc\n", "a\nx\nc\n"),
        ("a\n", "a\nb\n"),
        ("", "a"),
        ("a", ""),
        ("a\nb", "a\nb\n"),
        ("aa\naa\n", "aa\naa\naa\n"),
        ("\U0001f980\n\U0001f980x\n", "\U0001f980\n\U0001f980y\nz"),
        ("same", "same"),
    ],
)
def test_an_edit_makes_the_other_text(old: str, new: str) -> None:
    (edit,) = single_whole_line_edit_to_text(DocumentLines(old), new)
    assert Document("", 1, old).with_changes(2, [{"range": edit["range"], "text": edit["newText"]}]).text == new
    assert edit["range"]["start"]["character"] == 0


def test_a_shown_column_is_a_character() -> None:
    assert character_index_at_escaped_line_column("\udcff\ud800x", 16) == 2
    assert [character_index_at_escaped_line_column("\tab\u00e4c", it) for it in (0, 4, 5, 6, 14, 99)] == [
        0,
        1,
        2,
        3,
        4,
        5,
    ]


def test_a_diagnostic_says_what_sent_a_packet_by_which_rule_and_what_was_dropped() -> None:
    text = "0 a() = 1\n"
    seq = ScriptOutcome("a", (), Row(Verdict.FAIL, 1, "seq"))
    (found,) = diagnostics_of(seq, {"actual_packet": "x", "sent_by": {"line": 8}}, layout_of(text), DocumentLines(text))
    assert found.message == "fail seq\nactual packet: x, sent by line 8"
    sent = {"actual_packet": "x", "sent_by": {"timer_us": 8, "rule": "y", "rule_words": "rescue (RFC 1)"}}
    (found,) = diagnostics_of(seq, sent, layout_of(text), DocumentLines(text))
    assert found.message == "fail seq\nactual packet: x, sent by the timer: rescue (RFC 1)"
    dropped = [{"line": 5, "rule": "old_ack", "rule_words": "its ACK lies below una"}]
    missing = ScriptOutcome("a", (), Row(Verdict.FAIL, 1, "missing"))
    (found,) = diagnostics_of(missing, {"dropped_segments": dropped}, layout_of(text), DocumentLines(text))
    assert found.message == "fail missing\ndropped: line 5: its ACK lies below una"


def test_untaken_packets_are_counted_with_those_that_are_not_listed() -> None:
    text = "0 a() = 1\n"
    missing = ScriptOutcome("a", (), Row(Verdict.FAIL, 1, "missing"))
    cause = {"untaken_packets": ["x", "y"], "more_untaken_packets": 7}
    (found,) = diagnostics_of(missing, cause, layout_of(text), DocumentLines(text))
    assert found.message == "fail missing\nuntaken packets: 9"


@pytest.mark.parametrize(
    ("expected", "column", "message"),
    [
        (["`=`"], None, "expected `=` at the end of the text"),
        (["letters of flags", "`.`", "`-`"], 5, "expected letters of flags, `.` or `-`"),
        ([], 0, "the text is no script"),
    ],
)
def test_a_text_that_is_no_script_says_what_it_lacks_as_run_does(
    expected: list[str], column: int | None, message: str
) -> None:
    text = "0 a()\n"
    outcome = ScriptOutcome("a", (), Row(Verdict.SYNTAX, 1))
    cause = {"what": "the text is no script", "expected": expected, "column": column, "text_line": 1, "found": "x"}
    (found,) = diagnostics_of(outcome, cause, layout_of(text), DocumentLines(text))
    assert found.message == f"syntax: {message}\nfound: x"


def test_a_known_failure_is_a_hint_and_an_unexpected_pass_an_error() -> None:
    text = "0 a() = 1\n"
    known = ScriptOutcome("a", (), Row(Verdict.FAIL, 1, "result"), expected=Expectation("fail", "why"))
    (hint,) = diagnostics_of(known, None, layout_of(text), DocumentLines(text))
    assert (hint.severity, hint.message) == (4, "known: fail result (why)")
    passes = ScriptOutcome("a", (), Row(Verdict.PASS, 1), expected=Expectation("fail", "why"))
    (error,) = diagnostics_of(passes, None, layout_of(text), DocumentLines(text))
    assert (error.severity, error.code) == (1, "pass")
    empty = ScriptOutcome("a", (), Row(Verdict.PASS, 0), is_strict=True)
    (warned,) = diagnostics_of(empty, None, layout_of(""), DocumentLines(""))
    assert (warned.severity, warned.code) == (1, "warning")
    assert (
        list(diagnostics_of(ScriptOutcome("a", (), Row(Verdict.NOT_RUN)), None, layout_of(""), DocumentLines(""))) == []
    )
