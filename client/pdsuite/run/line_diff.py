"""The line diff of a script: what it expects, line by line to its end, beside the recording of its inputs."""

from collections.abc import Iterator, Mapping, Sequence
from dataclasses import dataclass, replace

from pdsuite.output.octets import printable_text
from pdsuite.packetdrill.columns import Mark, PacketColumns, PacketField, marked_field_columns_of_both_packets
from pdsuite.packetdrill.items import SECOND
from pdsuite.packetdrill.layout import Event, Layout, layout_of
from pdsuite.packetdrill.recorded import (
    MatchedEvent,
    RecordedEvent,
    match_events,
    recorded_events_in,
    tolerance_from_header_or_settings,
)
from pdsuite.programs.recorder import Recording
from pdsuite.programs.verdict import Row
from pdsuite.run.locate_row import find_failing_event_of_row
from pdsuite.scripts.defaults import DEFAULTS
from pdsuite.scripts.settings import Settings

# The lines below a row that have its event, each with the key of the program's.
_EVENT_KEYS = {"script packet: ": "script_packet", "call: ": "call", "event: ": "event"}
_TIME = "time"


@dataclass(frozen=True, slots=True)
class DiffLine:
    """An event of a script, and what it was met by where that is another, both in fields; a line counts from 1.

    A packet that no line expects has no event and no line; an event for which nothing was sent was met by nothing.
    """

    line: int | None
    script: PacketColumns
    met: PacketColumns = ()
    differs: bool = False


@dataclass(frozen=True, slots=True)
class LineDiff:
    """The lines of a script, each with what it was met by, or why that isn't known."""

    lines: tuple[DiffLine, ...]
    fault: str = ""


def line_diff_from_recording_or_its_fault(
    row: Row, block_lines: Sequence[str], text: str, recording: Recording, settings: Settings
) -> LineDiff:
    """The line diff of a script that fails, by a recording with its trace, or why there is no recording."""
    if recording.fault:
        return LineDiff((), recording.fault)
    return LineDiff(diff_script_events_with_recording(row, block_lines, text, recording.text, settings))


def diff_script_events_with_recording(
    row: Row, block_lines: Sequence[str], text: str, recording: str, settings: Settings
) -> tuple[DiffLine, ...]:
    """The events of a script that fails, beside those of a recording with its trace."""
    layout, recorded = layout_of(text), recorded_events_in(recording)
    allowed = tolerance_from_header_or_settings(layout.items, tolerance_us_of_settings(settings))
    met = list(
        match_events(
            layout.packets_and_calls,
            recorded,
            count_passed_events(layout, row, failing_event_text_by_explanation_key(block_lines)),
            allowed,
        )
    )
    return tuple(_merge_matched_and_unexpected_lines(met, recorded, recording, allowed))


def tolerance_us_of_settings(settings: Settings) -> int:
    """The tolerance that settings give, in microseconds."""
    value = {**DEFAULTS, **dict(settings)}["tolerance_us"]
    return value if isinstance(value, int) else SECOND


def count_passed_events(layout: Layout, row: Row, cause: Mapping[str, object] | None) -> int:
    """How many events passed before the one of a row that isn't a pass, as far as the row says."""
    event = find_failing_event_of_row(row, cause, layout)
    if event is not None and event in layout.packets_and_calls:
        return layout.packets_and_calls.index(event)
    return sum(it.item.line < (row.line or 0) for it in layout.packets_and_calls)


def failing_event_text_by_explanation_key(block_lines: Sequence[str]) -> dict[str, object]:
    """The event that lines below a row have."""
    return {
        key: line.removeprefix(begin)
        for line in block_lines
        for begin, key in _EVENT_KEYS.items()
        if line.startswith(begin)
    }


def _merge_matched_and_unexpected_lines(
    met: Sequence[MatchedEvent], recorded: Sequence[RecordedEvent], recording: str, allowed: int
) -> Iterator[DiffLine]:
    """The events in order; what none of them expects comes before the next that met something."""
    matched = {it.recorded.start for it in met if it.recorded is not None}
    left = [it for it in recorded if it.start not in matched]
    for it in met:
        if it.recorded is not None:
            while left and left[0].start < it.recorded.start:
                yield _unexpected_line(left.pop(0), recording)
        yield _diff_line_of_matched_event(it, recording, allowed)
    for one in left:
        yield _unexpected_line(one, recording)


def _unexpected_line(one: RecordedEvent, recording: str) -> DiffLine:
    return DiffLine(None, (), (PacketField(_packet_text_with_moment_comment(one, recording)),), True)


def _diff_line_of_matched_event(met: MatchedEvent, recording: str, allowed: int) -> DiffLine:
    """An event beside what it was met by."""
    event, one = met.event, met.recorded
    written = _event_text(event)
    if one is None:
        return DiffLine(event.item.line, (PacketField(written),), (), not event.is_input)
    if not event.is_expected_outbound_packet:
        return _diff_line_of_call_result(event, one, recording)
    is_late = not met.first - allowed <= one.moment <= met.last + allowed
    script, actual = map(
        _replace_fails_marks_by_differs,
        marked_field_columns_of_both_packets(
            written, _packet_text_with_moment_comment(one, recording), _TIME if is_late else ""
        ),
    )
    if any(it.mark is not Mark.NONE for it in script):
        return DiffLine(event.item.line, script, actual, True)
    return DiffLine(event.item.line, (PacketField(written),))


def _replace_fails_marks_by_differs(packet: PacketColumns) -> PacketColumns:
    """A packet whose marks say no more than that a field differs."""
    return tuple(replace(it, mark=Mark.DIFFERS) if it.mark is Mark.FAILS else it for it in packet)


def _diff_line_of_call_result(event: Event, one: RecordedEvent, recording: str) -> DiffLine:
    """A call beside its answer; a packet that arrives is met by itself."""
    written, result = _event_text(event), event.field_extents.get("result")
    if result is None:
        return DiffLine(event.item.line, (PacketField(written),))
    wanted = event.text[result.start : result.end]
    answered = layout_of(recording[one.start : one.end]).packets_and_calls
    place = answered[0].field_extents.get("result") if answered else None
    got = "" if place is None else answered[0].text[place.start : place.end]
    if "".join(got.split()) == "".join(wanted.split()) or not got:
        return DiffLine(event.item.line, (PacketField(written),))
    before = printable_text(" ".join(event.text[event.item.start : result.start].split()))
    marked = PacketField(before, blanks=1)
    return DiffLine(
        event.item.line, (marked, _text_marked_as_differing(wanted)), (marked, _text_marked_as_differing(got)), True
    )


def _text_marked_as_differing(text: str) -> PacketField:
    return PacketField(printable_text(" ".join(text.split())), Mark.DIFFERS)


def _event_text(event: Event) -> str:
    """An event as its script has it, on one line and safe to print."""
    return printable_text(" ".join(event.text[event.item.start : event.item.end].split()))


def _packet_text_with_moment_comment(one: RecordedEvent, recording: str) -> str:
    """A packet that was sent, with its moment in a comment."""
    moment = f"{one.moment // SECOND}.{one.moment % SECOND:06}"
    return f"{printable_text(recording[one.start : one.end])} // {moment}"
