"""Two packets one below the other: cut into fields, in columns, with those marked that differ."""

import re
from dataclasses import dataclass
from enum import Enum

# A packet as `pdregress --explain` writes it: the last `>` before flags and octets ends the time.
_PACKET = re.compile(
    r"(?P<time>.*?)\s*> (?P<flags>[A-Z.-]+)\s+(?P<seq>\d+:\d+\(\d+\))"
    r"(?:\s+ack (?P<ack>\d+))?(?:\s+win (?P<win>\d+))?(?:\s+<(?P<options>[^<>]*)>)?(?:\s+// (?P<moment>[\d.]+))?\s*"
)
_FORMS = {
    "time": "{}",
    "flags": "> {}",
    "seq": "{}",
    "ack": "ack {}",
    "win": "win {}",
    "options": "<{}>",
    "moment": "// {}",
}
_COMPARED = ("flags", "seq", "ack", "win", "options")
_ANY_OPTIONS = "..."


class Mark(Enum):
    """How a field of a packet compares with the same one of the other packet."""

    NONE = ""
    FAILS = "fails"  # the program says that the script fails by it
    DIFFERS = "differs"  # it is written otherwise


@dataclass(frozen=True, slots=True)
class PacketField:
    """A field as it is written, its mark, and how many blanks follow it."""

    text: str
    mark: Mark = Mark.NONE
    blanks: int = 0


PacketColumns = tuple[PacketField, ...]


def marked_field_columns_of_both_packets(script: str, actual: str, kind: str) -> tuple[PacketColumns, PacketColumns]:
    """Both packets field by field. `kind` is the field by which the script fails, as the program names it."""
    one, other = _PACKET.fullmatch(script), _PACKET.fullmatch(actual)
    if one is None or other is None:
        return (PacketField(script),), (PacketField(actual),)
    fields = [
        (name, one[name], other[name], _mark_fails_differs_or_none(name, one[name], other[name], kind))
        for name in _FORMS
    ]
    pairs = [
        (_make_marked_packet_field(name, left, mark), _make_marked_packet_field(name, right, mark))
        for name, left, right, mark in fields
        if left or right
    ]
    widths = [max(len(left.text), len(right.text)) for left, right in pairs]
    return _pad_fields_to_column_widths([it for it, _ in pairs], widths), _pad_fields_to_column_widths(
        [it for _, it in pairs], widths
    )


def _mark_fails_differs_or_none(name: str, script: str | None, actual: str | None, kind: str) -> Mark:
    if name == kind:
        return Mark.FAILS
    if name not in _COMPARED or script is None or _do_fields_agree(name, script, actual):
        return Mark.NONE
    return Mark.DIFFERS


def _do_fields_agree(name: str, script: str, actual: str | None) -> bool:
    """Whether a field that the script writes is written alike of the packet sent."""
    if name == "flags" and actual is not None:
        return set(script) == set(actual)
    return script == actual or (name == "options" and script == _ANY_OPTIONS)


def _make_marked_packet_field(name: str, value: str | None, mark: Mark) -> PacketField:
    return PacketField("", Mark.NONE) if value is None else PacketField(_FORMS[name].format(value), mark)


def _pad_fields_to_column_widths(parts: list[PacketField], widths: list[int]) -> PacketColumns:
    """The parts, each with the blanks up to the next column; the last one with none."""
    last = max(number for number, it in enumerate(parts) if it.text)
    padded = [
        PacketField(it.text, it.mark, width - len(it.text) + 1 if number < last else 0)
        for number, (it, width) in enumerate(zip(parts, widths))
    ]
    return tuple(padded[: last + 1])
