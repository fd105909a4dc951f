"""Draws strokes on a canvas. It knows of nothing but strokes."""

from collections.abc import Sequence

from matplotlib.collections import PolyCollection
from matplotlib.figure import Figure
from matplotlib.markers import TICKDOWN
from matplotlib.patches import Patch

from pdsuite.diagram.canvas import (
    Canvas,
    Size,
    alpha_paler_after_failing_line,
    rectangle_corners_from_bounds,
    color_name_of_label,
    widen_to_least,
)
from pdsuite.diagram.labels import PlacedLabel, timeline_labels_in_time_order, place_in_rows
from pdsuite.diagram.palette import LIGHT
from pdsuite.diagram.timeline_parts import ExpectedSegment, Flag, Segment, SegmentKind, Timeline

_MARKERS = {Flag.SYN: "D", Flag.FIN: "v", Flag.RST: "X"}
_KINDS = {SegmentKind.NEW: "new", SegmentKind.AGAIN: "again", SegmentKind.EMPTY: "empty"}


def draw_figure(timeline: Timeline, size: Size, title: str = "") -> Figure:
    """The picture of a diagram, with a title above if there is one."""
    canvas = Canvas(size, timeline.begin, timeline.end, _octet_axis_top(timeline))
    labels = _place_labels(timeline, canvas)
    _draw_octets(timeline, canvas)
    _draw_windows(timeline, canvas)
    _draw_label_lines(labels, canvas)
    canvas.place_axes_labels_and_legend(title, labels)
    return canvas.figure


def _octet_axis_top(timeline: Timeline) -> float:
    """The octet up to which the diagram goes: all that is sent, and the window's edge where it isn't far above."""
    ends = (
        [it.end for it in timeline.segments]
        + [it.end for it in timeline.blocks]
        + [it.octet for it in timeline.arrivals]
    )
    if timeline.failure is not None:
        ends += [it.end for it in (timeline.failure.expected, timeline.failure.actual) if it is not None]
    most = max(ends, default=1)
    edges = [it.value for it in timeline.edge if it.value is not None and it.value <= 1.6 * most]
    return max([most, *edges, 4]) * 1.05


def _place_labels(timeline: Timeline, canvas: Canvas) -> list[PlacedLabel]:
    labels = timeline_labels_in_time_order(timeline)
    places = [(it.at - canvas.begin) / canvas.unit for it in labels]
    return place_in_rows(
        labels, places, canvas.size.letter_width_in_pixels, canvas.size.width - canvas.size.left - canvas.size.right
    )


def _draw_octets(timeline: Timeline, canvas: Canvas) -> None:
    axes = canvas.octets
    for span in timeline.spans:
        for each in (axes, canvas.windows):
            each.axvspan(
                span.begin,
                span.end,
                color=LIGHT["span"],
                linewidth=0,
                alpha=alpha_paler_after_failing_line(span.is_later),
                gid="span",
            )
    if timeline.spans:
        canvas.legend.append((Patch(color=LIGHT["span"], linewidth=0), "recovery from a loss"))
    for kind, words in ((SegmentKind.NEW, "segment sent"), (SegmentKind.AGAIN, "segment sent again")):
        found = [it for it in timeline.segments if it.kind is kind]
        canvas.draw_bars(_KINDS[kind], [(it.at, it.start, it.end, it.is_later) for it in found], 4.5, words)
    blocks = [(it.at, it.start, it.end, it.is_later) for it in timeline.blocks]
    canvas.draw_bars("sack", blocks, 2.0, "SACK block that arrives")
    canvas.draw_stairs(axes, "edge", timeline.edge, _edge_legend_with_values_above_axis(timeline, canvas.high), 1.3)
    canvas.draw_stairs(axes, "ack", timeline.acknowledged, "acknowledged up to here", 1.3)
    _draw_actual_and_expected_if_failed(timeline, canvas)
    _draw_flags_empties_and_duplicate_acks(timeline, canvas)


def _edge_legend_with_values_above_axis(timeline: Timeline, high: float) -> str:
    values = [it.value for it in timeline.edge if it.value is not None]
    above = [it for it in values if it > high]
    if not above:
        return "edge of the peer's window"
    if len(above) < len(values):
        return f"edge of the peer's window, up to {max(values):,}"
    return f"edge of the peer's window: above, {_least_to_greatest_words(values)}"


def _draw_flags_empties_and_duplicate_acks(timeline: Timeline, canvas: Canvas) -> None:
    """Segments without octets, flags of those that leave, and what arrives."""
    empty = [it for it in timeline.segments if it.kind is SegmentKind.EMPTY and it.flag is Flag.NONE]
    canvas.draw_points("empty", [(it.at, it.start, it.is_later) for it in empty], "|", 9, "segment without octets")
    twice = [it for it in timeline.arrivals if it.is_duplicate]
    canvas.draw_points("ack", [(it.at, it.octet, it.is_later) for it in twice], TICKDOWN, 8, "duplicate ACK")
    for flag, marker in _MARKERS.items():
        for kind, role in _KINDS.items():
            sent = [it for it in timeline.segments if it.flag is flag and it.kind is kind]
            again = " again" if kind is SegmentKind.AGAIN else ""
            canvas.draw_points(
                role, _flag_marker_positions(sent, 7 * canvas.octet), marker, 7, f"{flag.value} sent{again}"
            )
        # Just below what is acknowledged, since what leaves at the same moment lies there.
        came = [it for it in timeline.arrivals if it.flag is flag and not it.is_dropped]
        below = [(it.at, it.octet - 10 * canvas.octet, it.is_later) for it in came]
        canvas.draw_points("ack", below, marker, 6.5, f"{flag.value} arrives", is_hollow=True)
        lost = [it for it in timeline.arrivals if it.flag is flag and it.is_dropped]
        above = [(it.at, it.octet + 10 * canvas.octet, it.is_later) for it in lost]
        canvas.draw_points("again", above, marker, 6.5, f"{flag.value} arrives and is dropped", is_hollow=True)


def _draw_actual_and_expected_if_failed(timeline: Timeline, canvas: Canvas) -> None:
    failure = timeline.failure
    if failure is not None and failure.actual is not None:
        _draw_actual_packet(failure.actual, canvas)
    if failure is not None and failure.expected is not None:
        _draw_expected_packet(failure.expected, failure.line, canvas)


def _draw_actual_packet(it: Segment, canvas: Canvas) -> None:
    """The packet that was sent in the place of the expected one, as a wide bar."""
    role = _KINDS[it.kind]
    place = rectangle_corners_from_bounds(
        it.at - 4 * canvas.unit, it.at + 4 * canvas.unit, *widen_to_least(it.start, it.end, 3 * canvas.octet)
    )
    bar = PolyCollection([place], facecolors=LIGHT[role], edgecolors="none", zorder=4, gid=role)
    canvas.octets.add_collection(bar, autolim=False)
    again = " again" if it.kind is SegmentKind.AGAIN else ""
    canvas.legend.append((Patch(facecolor=LIGHT[role], linewidth=0), f"packet sent{again}, but not expected so"))


def _draw_expected_packet(it: ExpectedSegment, line: int, canvas: Canvas) -> None:
    """The packet that the failing line expects, as an outline as wide as its time."""
    octets = widen_to_least(it.start, it.end, 6 * canvas.octet)
    place = rectangle_corners_from_bounds(it.first - 7 * canvas.unit, it.last + 7 * canvas.unit, *octets)
    style = {"facecolor": "none", "edgecolor": LIGHT["expected"], "linewidth": 1.6, "linestyle": (0, (3, 1.5))}
    outline = PolyCollection([place], zorder=6, gid="expected", **style)
    canvas.octets.add_collection(outline, autolim=False)
    canvas.legend.append((Patch(**style), f"packet expected by line {line}"))


def _draw_windows(timeline: Timeline, canvas: Canvas) -> None:
    axes = canvas.windows
    curves = (timeline.cwnd, timeline.flight_size, timeline.pipe)
    most = max((it.value for curve in curves for it in curve if it.value is not None), default=1)
    most = max(most, *(it.value for it in timeline.ssthresh if it.value is not None and it.value <= 3 * most), 1)
    axes.set_ylim(0, most * 1.12)
    canvas.draw_area_below_staircase("flight", timeline.flight_size, "FlightSize")
    canvas.draw_area_below_staircase("pipe", timeline.pipe, "pipe")
    canvas.draw_stairs(axes, "cwnd", timeline.cwnd, "cwnd", 2.0)
    limits = [it.value for it in timeline.ssthresh if it.value is not None]
    words = "ssthresh" if not limits or max(limits) <= most else f"ssthresh, up to {max(limits):,}"
    canvas.draw_stairs(axes, "ssthresh", timeline.ssthresh, words, 1.4, (0, (4, 2)))


def _draw_label_lines(labels: Sequence[PlacedLabel], canvas: Canvas) -> None:
    """A line through both axes at each moment that has words."""
    for it in labels:
        for axes in (canvas.octets, canvas.windows):
            axes.axvline(
                it.label.at,
                color=LIGHT[color_name_of_label(it.label)],
                linewidth=0.8,
                linestyle=(0, (2, 2)),
                alpha=alpha_paler_after_failing_line(it.label.is_later),
                zorder=1.5,
            )


def _flag_marker_positions(segments: Sequence[Segment], above: float) -> list[tuple[int, float, bool]]:
    return [(it.at, it.start if it.flag is Flag.SYN else it.end + above, it.is_later) for it in segments]


def _least_to_greatest_words(values: Sequence[int]) -> str:
    low, high = min(values), max(values)
    return f"{low:,}" if low == high else f"{low:,} to {high:,}"
