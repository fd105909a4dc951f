"""The line diff of a script: as lines for people, and by keys."""

from collections.abc import Iterator

from pdsuite.packetdrill.columns import Mark, PacketColumns
from pdsuite.run.line_diff import DiffLine, LineDiff

_HEAD = "line by line, to the end (- as the script has it, + as it came):"
_NOTHING = "nothing was sent"
_UNEXPECTED = "asked for by no line"
_NUMBER = 5


def line_diff_lines(differences: LineDiff) -> Iterator[str]:
    """A line for each event; where another came, that in a second line, and marks below what differs."""
    if differences.fault:
        yield f"line by line: not known, since it isn't recorded: {differences.fault}"
        return
    yield _HEAD
    for it in differences.lines:
        yield from _event_lines(it)


def _event_lines(it: DiffLine) -> Iterator[str]:
    if it.line is None:
        yield _join_line_number_sign_and_text("", "+", f"{packet_in_columns(it.met)} ({_UNEXPECTED})")
        return
    yield _join_line_number_sign_and_text(str(it.line), "-" if it.differs else " ", packet_in_columns(it.script))
    if it.differs:
        yield _join_line_number_sign_and_text("", "+", packet_in_columns(it.met) or _NOTHING)
        if marks := _mark_line(it.met or it.script):
            yield _join_line_number_sign_and_text("", "?", marks)


def _join_line_number_sign_and_text(number: str, sign: str, text: str) -> str:
    return f"{number:>{_NUMBER}} {sign} {text}".rstrip()


def packet_in_columns(packet: PacketColumns) -> str:
    """A packet in its columns."""
    return "".join(it.text + " " * it.blanks for it in packet)


def _mark_line(packet: PacketColumns) -> str:
    """The marks below the fields that differ."""
    return "".join(
        ("^" if it.mark is not Mark.NONE else " ") * len(it.text) + " " * it.blanks for it in packet
    ).rstrip()


def line_diff_json_list_or_fault(differences: LineDiff) -> list[dict[str, object]] | str:
    """The same by keys; or why it isn't known."""
    if differences.fault:
        return differences.fault
    return [_diff_line_json_object(it) for it in differences.lines]


def _diff_line_json_object(it: DiffLine) -> dict[str, object]:
    keys: dict[str, object] = {"line": it.line, "differs": it.differs}
    if it.line is not None:
        keys["event"] = _packet_without_columns(it.script)
    if it.differs:
        keys["met_by"] = _packet_without_columns(it.met) or None
    return keys


def _packet_without_columns(packet: PacketColumns) -> str:
    """A packet without columns."""
    return " ".join(it.text for it in packet if it.text)
