"""Where in a script's text its row is: the field of the event that it is about, the event, a token or the line."""

import re
from dataclasses import dataclass

from pdsuite.packetdrill.layout import Event, Layout
from pdsuite.packetdrill.lines import Extent, TextLines
from pdsuite.programs.protocol import Cause
from pdsuite.programs.verdict import Row, Verdict

# Which part of an event a rule is about, where it isn't all of it.
_RULES = {
    "time": "time",
    "inbound_time": "time",
    "call_time": "time",
    "start": "seq",
    "end": "seq",
    "ack": "ack",
    "win": "win",
    "options": "options",
    "mss": "options",
    "wscale": "options",
    "blocks": "options",
    "block": "options",
    "write": "arguments",
    "call_shape": "arguments",
    "call_name": "call",
    "flag": "flags",
    "small_mss": "options",
    "data": "seq",
}
_TOKEN = re.compile(r"[0-9A-Za-z_]+|.")


@dataclass(frozen=True, slots=True)
class RowLocation:
    """A part of a text, and the name of the field that it is, if it is one."""

    extent: Extent
    field: str = ""


def locate_row_field_event_or_line(row: Row, cause: Cause | None, layout: Layout, lines: TextLines) -> RowLocation:
    """The field that a row is about, else its event, else its line."""
    if row.line is None:
        return RowLocation(lines.line_extent_after_indent(0))
    line = min(row.line, lines.line_count) - 1
    if row.verdict is Verdict.SYNTAX:
        return RowLocation(_syntax_error_extent(line, cause, layout, lines))
    event = find_failing_event_of_row(row, cause, layout)
    if event is None:
        return RowLocation(lines.line_extent_after_indent(line))
    field = "time" if row.word == "backwards" else row.word or _RULES.get(str((cause or {}).get("rule")), "")
    extent = event.field_extents.get(field)
    return RowLocation(event.extent) if extent is None else RowLocation(extent, field)


def find_failing_event_of_row(row: Row, cause: Cause | None, layout: Layout) -> Event | None:
    """The event that a row is about."""
    if row.line is None:
        return None
    explanation = cause or {}
    printed = next((str(explanation[it]) for it in ("script_packet", "call", "event") if it in explanation), "")
    return layout.find_item_starting_on_line(row.line, printed)


def _syntax_error_extent(line: int, cause: Cause | None, layout: Layout, lines: TextLines) -> Extent:
    """The token at which no script goes on, or where a line lacks something; at the end of the text its last line."""
    explanation = cause or {}
    column, number = explanation.get("column"), explanation.get("text_line")
    if not isinstance(column, int):
        return lines.line_extent_after_indent(line)
    if isinstance(number, int):
        line = number - 1
    start = lines.line_start(line) + character_index_at_escaped_line_column(lines.line_content(line), column)
    found = _TOKEN.match(layout.text, start)
    return Extent(start, start + 1 if found is None else found.end())


def character_index_at_escaped_line_column(content: str, column: int) -> int:
    """The character of a line that stands at a column of it as the program shows it, where a hidden octet takes 4."""
    shown = 0
    for place, character in enumerate(content):
        if shown >= column:
            return place
        shown += 1 if " " <= character <= "~" else 4 * _octet_count_of_character(character)
    return len(content)


def _octet_count_of_character(character: str) -> int:
    """How many octets a character is of; one that isn't UTF-8 stands as Python's `surrogateescape` has it."""
    return 1 if "\udc80" <= character <= "\udcff" else len(character.encode("utf-8", "surrogatepass"))
