"""Packets as the program shows them, and what they make of an event that expected others."""

import re
from collections.abc import Sequence
from dataclasses import dataclass

from pdsuite.packetdrill.items import SECOND
from pdsuite.packetdrill.layout import Event

_SHOWN = re.compile(
    r"(?P<time>.*?)\s*> +(?P<flags>[A-Z.-]+)\s+(?P<seq>\d+:\d+\(\d+\))"
    r"(?:\s+ack (?P<ack>\d+))?(?:\s+win (?P<win>\d+))?(?:\s+(?P<options><[^<>]*>))?\s+// (?P<moment>\d+\.\d{6})"
)
_AGE = re.compile(r"\+(\d+)(?:\.(\d{1,6}))?")
_ANY_TIME = "*"
_ANY_OPTIONS = re.compile(r"<\s*\.\.\.\s*>")
# The fields that can be left out, in the order of a packet.
_LEFT_OUT = ("ack", "win", "options")


@dataclass(frozen=True, slots=True)
class SentPacket:
    """A packet that was sent: its fields as they are written, and its moment in microseconds."""

    time: str  # from the base on, or `*` where it left before that
    flags: str
    seq: str
    ack: str
    win: str
    options: str
    moment: int

    @property
    def text_without_time(self) -> str:
        """The packet without its time."""
        return " ".join(["> " + self.flags, self.seq, *(it for it in (self.ack, self.win, self.options) if it)])

    def field_text(self, name: str) -> str:
        """A field as an event has it; nothing where the packet hasn't any."""
        return {"ack": self.ack, "win": self.win, "options": self.options, "flags": self.flags, "seq": self.seq}[name]


def parse_sent_packet(shown: object) -> SentPacket | None:
    """A packet that the program shows."""
    found = _SHOWN.fullmatch(shown) if isinstance(shown, str) else None
    if found is None:
        return None
    ack, win = (f"{name} {found[name]}" if found[name] else "" for name in ("ack", "win"))
    moment = int(found["moment"].replace(".", ""))
    return SentPacket(found["time"], found["flags"], found["seq"], ack, win, found["options"] or "", moment)


def parse_sent_packets(shown: object) -> list[SentPacket]:
    """The packets of a list that the program shows."""
    each = shown if isinstance(shown, list) else []
    return [it for it in map(parse_sent_packet, each) if it is not None]


def event_text_replaced_by_sent_packet(text: str, event: Event, sent: SentPacket, with_time: bool) -> str:
    """The event with what was sent in place of what it says: only fields that it writes, and options that it lacks."""
    put = [
        it
        for name in ("flags", "seq", *_LEFT_OUT)
        for it in _replacement_of_field_if_needed(text, event, name, sent.field_text(name))
    ]
    if with_time:
        place = event.field_extents["time"]
        put.append((place.start, place.end, sent.time))
    begin = event.item.start
    words = text[begin : event.item.end]
    for start, end, value in sorted(put, reverse=True):
        words = words[: start - begin] + value + words[end - begin :]
    return words


def _replacement_of_field_if_needed(text: str, event: Event, name: str, value: str) -> list[tuple[int, int, str]]:
    """The replacement for a field, if it needs one: where it begins and ends, and the text that is put there."""
    place = event.field_extents.get(name)
    if place is None:
        end = event.item.end
        return [(end, end, f" {value}")] if name == "options" and value else []
    old = text[place.start : place.end]
    if old == value or (name == "options" and _ANY_OPTIONS.fullmatch(old)):
        return []
    if name == "flags" and set(old) == set(value):
        return []
    start = place.start
    if not value:
        start -= len(text[:start]) - len(text[:start].rstrip())
    return [(start, place.end, value)]


def event_lines_for_packets(sents: Sequence[SentPacket]) -> list[str]:
    """Events that take packets one after another, each time counted from what the one before it left as the base.

    A packet that left before the base has any time, which leaves the base as it is.
    """
    base: int | None = None
    lines = []
    for it in sents:
        if it.time == _ANY_TIME:
            lines.append(f"{_ANY_TIME} {it.text_without_time}")
            continue
        if base is None:
            base = it.moment - _parse_age_in_microseconds(it.time)
        lines.append(f"+{_seconds_without_trailing_zeros(it.moment - base)} {it.text_without_time}")
        base = it.moment
    return lines


def _parse_age_in_microseconds(time: str) -> int:
    found = _AGE.fullmatch(time)
    return int(found[1]) * SECOND + int((found[2] or "0").ljust(6, "0")) if found else 0


def _seconds_without_trailing_zeros(microseconds: int) -> str:
    whole, part = divmod(microseconds, SECOND)
    return f"{whole}.{part:06}".rstrip("0") if part else str(whole)
