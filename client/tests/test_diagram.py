"""Diagrams as data: from a recording to strokes, and where a script fails; then as octets of pictures."""

from dataclasses import replace
from pathlib import Path

import pytest

from pdsuite.diagram.canvas import WIDE
from pdsuite.diagram.failing_line import failing_line_of
from pdsuite.diagram.labels import MOST_ROWS, Label, place_in_rows
from pdsuite.diagram.pictures import png_octets, standalone_svg_octets, wide_and_narrow_svgs_for_page
from pdsuite.diagram.plot import draw_figure
from pdsuite.diagram.timeline import timeline_if_any_packet
from pdsuite.diagram.timeline_parts import Arrival, ExpectedSegment, Flag, Note, SackBlock, Segment, SegmentKind, Stair
from pdsuite.diagram.timeline_parts import Timeline
from pdsuite.page.diagram_choice import DiagramChoice, Plot, choose_plot_of_each_script
from pdsuite.programs.trace import traced_events_in
from pdsuite.programs.verdict import Row, Verdict
from pdsuite.run.outcomes import ScriptOutcome

RECORDINGS = Path(__file__).with_name("recordings")


def strokes(name: str) -> Timeline:
    """The strokes of a recording."""
    found = timeline_if_any_packet(traced_events_in((RECORDINGS / f"{name}.txt").read_text()))
    assert found is not None
    return found


def sent(found: Timeline) -> list[str]:
    """The segments that leave, in one line each: milliseconds, octets, what they are."""
    return [
        " ".join(filter(None, (f"{it.at // 1000}", f"{it.start}:{it.end}", it.kind.value, it.flag.value)))
        for it in found.segments
    ]


def stairs(steps: tuple[Stair, ...]) -> list[tuple[int, int | None]]:
    """A staircase, its moments in milliseconds."""
    return [(it.at // 1000, it.value) for it in steps]


def notes(found: Timeline) -> list[tuple[int, str]]:
    return [(it.at // 1000, it.words) for it in found.notes]


@pytest.mark.parametrize(
    ("edges", "most"),
    [((), 8_002), ((9_000, 12_803), 12_803), ((9_000, 12_804), 9_000), ((7_000, None), 8_002)],
)
def test_a_diagram_is_as_high_as_a_window_that_is_not_far_above(edges: tuple[int | None, ...], most: int) -> None:
    """Up to 1.6 times the octets that are sent, which go to 8,002."""
    found = replace(strokes("timeout"), edge=tuple(Stair(200_000, it) for it in edges))
    assert draw_figure(found, WIDE).axes[0].get_ylim()[1] == pytest.approx(1.05 * most)


def test_each_row_of_words_has_its_room() -> None:
    """Words at one moment stand in rows, one above another."""
    found = strokes("timeout")
    notes = [tuple(Note(1_300_000, "w" * 20) for _ in range(count)) for count in range(4)]
    heights = [draw_figure(replace(found, notes=it), WIDE).get_size_inches()[1] for it in notes]
    steps = [after - before for before, after in zip(heights, heights[1:])]
    assert steps[0] > 0.1 and steps == pytest.approx([steps[0]] * 3)


def test_a_timeout() -> None:
    found = strokes("timeout")
    assert sent(found) == [
        "100 0:1 new SYN",
        *(f"200 {it}001:{it + 1}001 new".replace(" 0001", " 1") for it in range(4)),
        *("300 4001:5001 new", "300 5001:6001 new", "1300 1001:2001 again", "3300 1001:2001 again"),
        *("3400 2001:3001 again", "3400 3001:4001 again", "3500 4001:5001 again", "3500 5001:6001 again"),
        *("3500 6001:7001 new", "3600 7001:8001 new", "3800 8001:8002 new FIN", "3900 8002:8002 empty"),
    ]
    assert notes(found) == [(1300, "timeout, RTO 1 s"), (3300, "timeout, RTO 2 s")]
    assert (1300, 1000) in stairs(found.cwnd)
    assert stairs(found.ssthresh) == [(1300, 2500)]
    assert stairs(found.acknowledged)[:4] == [(100, 0), (200, 1), (300, 1001), (3400, 2001)]
    assert (found.spans, found.blocks, found.failure, found.has_later_events) == ((), (), None, False)


def test_a_recovery_with_sack() -> None:
    found = strokes("sack")
    assert found.blocks == (
        SackBlock(300_000, 1001, 2001),
        SackBlock(310_000, 1001, 3001),
        SackBlock(320_000, 1001, 4001),
    )
    assert [it for it in sent(found) if "again" in it] == ["320 1:1001 again"]
    assert notes(found) == [(320, "loss: SACK recovery")]
    assert [(it.begin, it.end) for it in found.spans] == [(320_000, 440_000)]
    assert stairs(found.pipe) == [(320, 3000), (420, 2000), (440, None)]
    assert stairs(found.flight_size) == [(200, 4000), (300, 5000), (310, 6000), (320, None), (440, 2000), (640, 0)]
    assert [it.at for it in found.arrivals if it.is_duplicate] == [300_000, 310_000, 320_000]
    assert stairs(found.edge)[:2] == [(200, 32_897), (420, 36_897)]


def test_a_recovery_without_sack() -> None:
    found = strokes("without_sack")
    assert (found.blocks, found.pipe) == ((), ())
    assert [it for it in sent(found) if "again" in it] == ["320 1:1001 again"]
    assert notes(found) == [(320, "loss: fast recovery")]
    assert [it.at for it in found.arrivals if it.is_duplicate] == [300_000, 310_000, 320_000]


def test_a_close_of_this_side_first() -> None:
    found = strokes("active_close")
    assert sent(found)[-2:] == ["200 1001:1002 new FIN", "500 1002:1002 empty"]
    assert found.arrivals[-1] == Arrival(500_000, 1002, Flag.FIN)
    assert found.arrivals[0] == Arrival(100_000, 0, Flag.SYN)


def test_a_close_of_the_peer_first() -> None:
    found = strokes("passive_close")
    assert sent(found)[-2:] == ["300 1001:1001 empty", "400 1001:1002 new FIN"]
    assert [it for it in found.arrivals if it.flag is Flag.FIN] == [Arrival(300_000, 1001, Flag.FIN)]


RESET = """+0.5 < S 0:0(0) win 100 <mss 1000>
//= at 0.500000 SYN-RECEIVED una:0 next:1 top:1 end:1 FlightSize:1 RTO:1.000000 expiry:1.500000
+0 > S. 0:0(0) ack 1 win 65535 <mss 1460>
//= at 0.500000 SYN-RECEIVED una:0 next:1 top:1 end:1 FlightSize:1 RTO:1.000000 expiry:1.500000
+1 > S. 0:0(0) ack 1 win 65535 <mss 1460>
//= at 1.500000 SYN-RECEIVED una:0 next:1 top:1 end:1 FlightSize:1 RTO:2.000000 expiry:3.500000
+0.1 < R 1:1(0) win 0
//= at 1.600000 CLOSED connection:reset
"""


def test_a_reset_ends_the_stairs_and_times_count_from_the_start_of_the_run() -> None:
    found = timeline_if_any_packet(
        traced_events_in("+0 socket(..., SOCK_STREAM, 6) = 3\n//= at 0.000000 CLOSED connection:none\n" + RESET)
    )
    assert found is not None
    assert (found.begin, found.end) == (500_000, 1_600_000)
    assert sent(found) == ["500 0:1 new SYN", "1500 0:1 again SYN"]
    assert notes(found) == [(1500, "timeout, RTO 1 s"), (1600, "reset")]
    assert stairs(found.acknowledged) == [(500, 0), (1600, None)]
    assert found.arrivals[-1] == Arrival(1_600_000, 0, Flag.RST)


OPEN = "una:1 next:1001 top:1001 end:1001 cwnd:4000 ssthresh:2000 rwnd:256 FlightSize:1000 DupAcks:0 RTO:1 expiry:2"
FINS = f"""+0.5 < S 0:0(0) win 100 <mss 1000>
//= at 0.500000 SYN-RECEIVED una:0 next:1 top:1 end:1 FlightSize:1 RTO:1.000000 expiry:1.500000
+0 > P. 1:1001(1000) ack 1 win 511
//= at 0.500000 ESTABLISHED {OPEN}
+0.1 < F. 1:1(0) ack 28800 win 256
//= at 0.600000 ESTABLISHED {OPEN}
+0 < . 1:1(0) ack 30000 win 256
//= at 0.600000 ESTABLISHED {OPEN}
+0.1 < R. 9:9(0) ack 40000 win 256
//= at 0.700000 ESTABLISHED {OPEN}
+0.1 < F. 1:1(0) ack 1001 win 256
//= at 0.800000 CLOSE-WAIT {OPEN.replace('una:1 ', 'una:1001 ')}
+0.1 < F. 1:1(0) ack 1001 win 256
//= at 0.900000 CLOSE-WAIT {OPEN.replace('una:1 ', 'una:1001 ')}
+0.1 < R. 2:2(0) ack 50000 win 256
//= at 1.000000 CLOSED connection:reset
"""


def test_a_fin_or_rst_that_is_dropped_is_marked_where_acknowledged_octets_end() -> None:
    found = timeline_if_any_packet(traced_events_in(FINS))
    assert found is not None
    assert found.arrivals == (
        Arrival(500_000, 0, Flag.SYN),
        Arrival(600_000, 1, Flag.FIN, is_dropped=True),
        Arrival(600_000, 1),
        Arrival(700_000, 1, Flag.RST, is_dropped=True),
        Arrival(800_000, 1001, Flag.FIN),
        Arrival(900_000, 1001, Flag.FIN, is_dropped=True),
        Arrival(1_000_000, 1001, Flag.RST),
    )
    assert notes(found) == [(600, "FIN dropped"), (700, "RST dropped"), (900, "FIN dropped"), (1000, "reset")]


def test_what_is_dropped_is_drawn_just_above_the_stairs_and_raises_nothing() -> None:
    found = timeline_if_any_packet(traced_events_in(FINS))
    assert found is not None
    picture = draw_figure(found, WIDE)
    axes = picture.axes[0]
    low, high = axes.get_ylim()
    assert high < 2_000
    marks = [line for line in axes.get_lines() if line.get_marker() == "v"]
    places = sorted((x, y) for line in marks for x, y in zip(*line.get_data()))
    step = 10 * (high - low) / WIDE.octets
    assert [round(x) for x, _ in places] == [600_000, 800_000, 900_000]
    assert [round(y - octet) for (_, y), octet in zip(places, (1, 1001, 1001))] == [
        round(step),
        -round(step),
        round(step),
    ]
    words = [it.get_text() for it in picture.legends[0].get_texts()]
    assert "FIN arrives and is dropped" in words and "RST arrives and is dropped" in words
    assert picture.axes[1].get_xlabel() == "seconds after the start of the run"
    assert axes.get_xlim()[0] > 400_000


@pytest.mark.parametrize(
    "recording", ["", "0 close(3) = 0\n//= at 0.000000 CLOSED connection:none\n", RESET[:-30], "?"]
)
def test_without_packets_or_states_there_are_no_strokes(recording: str) -> None:
    assert timeline_if_any_packet(traced_events_in(recording)) is None


def script_of(name: str) -> str:
    """The script that is a recording, without its trace."""
    lines = (RECORDINGS / f"{name}.txt").read_text().splitlines(keepends=True)
    return "".join(it for it in lines if not it.startswith("//= "))


WRONG = {
    "script_packet": "+0 > . 1:1001(1000)    ack 1",
    "actual_packet": "+0 > . 5001:6001(1000) ack 1 win 511 // 0.310000",
    "sent_us": 310_000,
}


def test_the_failing_packet_is_an_outline_and_what_was_sent_is_filled_and_what_comes_later_is_pale() -> None:
    script = script_of("fails").replace("> . 5001:6001(1000) ack 1 win 511", "> . 1:1001(1000) ack 1")
    failing = failing_line_of(script, 16, WRONG)
    assert failing is not None
    assert (failing.inputs, failing.packets, failing.moment) == (9, 6, 310_000)
    found = timeline_if_any_packet(traced_events_in((RECORDINGS / "fails.txt").read_text()), failing)
    assert found is not None and found.failure is not None and found.has_later_events
    assert found.failure.expected == ExpectedSegment(310_000, 310_000, 1, 1001)
    assert found.failure.actual == Segment(310_000, 5001, 6001, SegmentKind.NEW)
    assert "310 5001:6001 new" not in sent(found)
    assert {it.at for it in found.segments if it.is_later} == {320_000, 520_000}
    assert {it.at for it in found.arrivals if not it.is_later} == {100_000, 200_000, 300_000, 310_000}
    assert stairs(tuple(it for it in found.cwnd if it.is_later)) == [(320, 2000)]


def test_a_missing_packet_has_an_outline_alone_and_its_moments() -> None:
    script = "0 write(3, ..., 1) = 1\n+0.1~+0.3 > P. 1:2(1) ack 1\n"
    cause = {"script_packet": "+0.1~+0.3 > P. 1:2(1) ack 1", "awaited_from_us": 100_000, "awaited_until_us": 300_000}
    failing = failing_line_of(script, 2, cause)
    assert failing is not None and failing.expected is not None
    assert (failing.inputs, failing.packets, failing.moment, failing.actual) == (1, 0, 300_000, None)
    assert (failing.expected.first, failing.expected.last) == (100_000, 300_000)
    recording = RESET.replace("+0.5 <", "+0 <").replace("at 0.500000", "at 0.000000")
    found = timeline_if_any_packet(traced_events_in(recording), failing)
    assert found is not None and found.failure is not None
    assert (found.failure.at, found.failure.expected, found.failure.actual) == (
        300_000,
        ExpectedSegment(100_000, 300_000, 1, 2),
        None,
    )
    assert [it.is_later for it in found.segments] == [False, True]


def test_a_packet_that_left_early_fails_when_it_left() -> None:
    script = "0 write(3, ..., 1) = 1\n+0.1~+0.3 > P. 1:2(1) ack 1\n"
    cause = {
        **{"script_packet": "+0.1~+0.3 > P. 1:2(1) ack 1", "awaited_from_us": 100_000, "awaited_until_us": 300_000},
        **{"actual_packet": "+0.05 > P. 1:2(1) ack 1 win 511 // 0.050000", "sent_us": 50_000},
    }
    failing = failing_line_of(script, 2, cause)
    assert failing is not None and failing.expected is not None
    assert (failing.moment, failing.expected.first, failing.expected.last) == (50_000, 100_000, 300_000)


def test_a_call_that_fails_has_no_packet() -> None:
    failing = failing_line_of("0 close(3) = 0\n+1 close(3) = 1\n", 2, {"call": "+1 close(3) = 1"})
    assert failing is not None
    assert (failing.inputs, failing.packets, failing.expected, failing.actual) == (2, 0, None, None)
    assert failing_line_of("0 close(3) = 0\n", 7, {}) is None


def test_words_above_never_lie_over_each_other() -> None:
    labels = [Label(number, "timeout, RTO 1 s") for number in range(12)]
    found = place_in_rows(labels, [number * 20.0 for number in range(12)], 6.0, 400.0)
    rows: dict[int, float] = {}
    for it in found:
        if it.row is not None:
            assert it.left >= rows.get(it.row, 0.0)
            assert it.left + len(it.label.words) * 6.0 <= 400.0
            rows[it.row] = it.left + len(it.label.words) * 6.0
    assert len(rows) == MOST_ROWS


NAMES = ["$\\frac{$", '<script>alert(1)</script>"&', "#1f5fae", 'id="new"', "x" * 500, "\u4e2d\u6587"]


@pytest.mark.parametrize("name", NAMES)
def test_a_name_is_a_text_in_files_whatever_it_is(name: str) -> None:
    octets = standalone_svg_octets(strokes("sack"), name)
    assert octets == standalone_svg_octets(strokes("sack"), name)
    text = octets.decode()
    assert text.count("<svg") == 1 and "<script" not in text and "<metadata" not in text
    shown = name if len(name) <= 120 else "..." + name[-117:]
    for sign, words in (("&", "&amp;"), ("<", "&lt;"), (">", "&gt;"), ('"', "&quot;")):
        shown = shown.replace(sign, words)
    assert f">{shown}</text>" in text
    assert png_octets(strokes("sack"), name).startswith(b"\x89PNG")


def test_the_same_strokes_give_the_same_octets_with_classes_and_variables() -> None:
    text = wide_and_narrow_svgs_for_page(strokes("sack"))
    assert text == wide_and_narrow_svgs_for_page(strokes("sack"))
    assert text.count("<svg") == 2
    for name in ("new", "again", "sack", "ack", "cwnd", "ssthresh"):
        assert f'class="{name}"' in text and f"var(--diagram-{name})" in text
    assert "#" not in text.replace("url(#", "").replace('href="#', "")
    assert "2026" not in text and "Date" not in text


def test_which_scripts_are_drawn() -> None:
    verdicts = [Verdict.FAIL, Verdict.PASS, Verdict.FAIL, Verdict.SYNTAX, Verdict.FAIL]
    outcomes = [ScriptOutcome(f"a/{number}.pkt", (), Row(it, 1)) for number, it in enumerate(verdicts)]
    assert list(choose_plot_of_each_script(outcomes, DiagramChoice(None, 2))) == [
        Plot.PAGE,
        Plot.NONE,
        Plot.PAGE,
        Plot.NONE,
        Plot.NONE,
    ]
    assert list(choose_plot_of_each_script(outcomes, DiagramChoice("1.pkt", 0))) == [
        Plot.NONE,
        Plot.FILES,
        Plot.NONE,
        Plot.NONE,
        Plot.NONE,
    ]
    assert list(choose_plot_of_each_script(outcomes, DiagramChoice("a/*", 50))) == [Plot.FILES] * 5
