"""The explanation of a row as an object: what the program says by keys, where that is, and both packets by field."""

from collections.abc import Iterable, Iterator, Mapping
from dataclasses import replace

from pdsuite.packetdrill.items import Packet
from pdsuite.packetdrill.layout import Event, Layout, layout_of
from pdsuite.packetdrill.lines import Extent, TextLines
from pdsuite.packetdrill.reader import join_tokens_in_one_line
from pdsuite.packetdrill.tokens import tokens_of
from pdsuite.programs.cause_text import make_printable
from pdsuite.programs.protocol import Cause
from pdsuite.programs.verdict import Row
from pdsuite.run.locate_row import RowLocation, find_failing_event_of_row, locate_row_field_event_or_line
from pdsuite.run.outcomes import ScriptOutcome
from pdsuite.run.run_batches import SettledPiece, Step
from pdsuite.scripts.text import ScriptText

# The name of a script in a run, which nobody else knows.
_NAME = "name"
# The packets that are reported by field.
_SCRIPT_PACKET, _ACTUAL_PACKET = "script_packet", "actual_packet"


def add_places_and_packet_fields_to_steps(steps: Iterable[Step]) -> Iterator[Step]:
    """The steps, in which each explanation has the place of its row and its packets by field."""
    for step in steps:
        if isinstance(step, SettledPiece):
            whole = [
                _add_place_and_packet_fields_to_outcome(it, step.causes.get(script.index), step.texts.get(script.index))
                for script, it in step.outcomes
            ]
            step = replace(step, outcomes=[(script, it) for (script, _), it in zip(step.outcomes, whole)])
        yield step


def _add_place_and_packet_fields_to_outcome(
    outcome: ScriptOutcome, cause: Cause | None, text: ScriptText | None
) -> ScriptOutcome:
    if cause is None or text is None or outcome.row.line is None:
        return outcome
    return replace(outcome, explanation=explanation_with_place_and_packet_fields(outcome.row, cause, text))


def explanation_with_place_and_packet_fields(row: Row, cause: Cause, text: ScriptText) -> Mapping[str, object]:
    """The program's explanation of a row, safe to print, with the place in the text and the packets by field."""
    script = text.octets.decode("utf-8", "surrogateescape")
    layout, lines = layout_of(script), TextLines(script)
    explained: dict[str, object] = {key: _make_value_printable(value) for key, value in cause.items() if key != _NAME}
    explained["place"] = _line_and_column_fields_of_place(
        locate_row_field_event_or_line(row, cause, layout, lines), lines
    )
    fields = {
        key: _packet_fields(event) for key, event in _script_and_actual_packets(row, cause, layout) if event is not None
    }
    return {**explained, "fields": fields} if fields else explained


def _line_and_column_fields_of_place(place: RowLocation, lines: TextLines) -> dict[str, object]:
    """Lines count from 1, and columns are octets before the place in its line."""
    line, column = _line_and_octet_column(place.extent.start, lines)
    end_line, end_column = _line_and_octet_column(place.extent.end, lines)
    fields: dict[str, object] = {"field": place.field} if place.field else {}
    return {**fields, "line": line, "column": column, "end_line": end_line, "end_column": end_column}


def _line_and_octet_column(offset: int, lines: TextLines) -> tuple[int, int]:
    line = lines.line_of(offset)
    return line + 1, len(lines.text[lines.line_start(line) : offset].encode("utf-8", "surrogateescape"))


def _script_and_actual_packets(row: Row, cause: Cause, layout: Layout) -> Iterator[tuple[str, Event | None]]:
    """The packet of the script, as its text has it, and the one that was sent."""
    if _SCRIPT_PACKET in cause:
        event = find_failing_event_of_row(row, cause, layout)
        if event is None or not event.is_expected_outbound_packet:
            event = _parse_packet_event_if_any(cause[_SCRIPT_PACKET])
        yield _SCRIPT_PACKET, event
    if _ACTUAL_PACKET in cause:
        yield _ACTUAL_PACKET, _parse_packet_event_if_any(cause[_ACTUAL_PACKET])


def _parse_packet_event_if_any(packet: object) -> Event | None:
    """A packet of the program's words."""
    events = layout_of(packet).items if isinstance(packet, str) else ()
    return next((it for it in events if it.is_expected_outbound_packet), None)


def _packet_fields(event: Event) -> dict[str, object]:
    """A packet by the names that kinds of failures have, as far as it has these fields."""
    packet = event.item.what
    assert isinstance(packet, Packet)  # one that is expected to leave
    fields: dict[str, object] = {
        it: _field_text(event, event.field_extents[it]) for it in ("time", "flags") if it in event.field_extents
    }
    fields["seq"] = {"start": packet.start, "end": packet.end}
    fields |= {name: number for name, number in (("ack", packet.ack), ("win", packet.win)) if number is not None}
    return {**fields, "options": packet.options_text} if packet.options_text else fields


def _field_text(event: Event, extent: Extent) -> str:
    return join_tokens_in_one_line(list(tokens_of(event.text[extent.start : extent.end])))


def _make_value_printable(value: object) -> object:
    """A value in which all strings are made printable."""
    match value:
        case str():
            return make_printable(value)
        case list():
            return [_make_value_printable(it) for it in value]
        case dict():
            return {make_printable(str(key)): _make_value_printable(it) for key, it in value.items()}
    return value
