"""Where a script fails: how much of it was done before, the packet that was expected, and the one that was sent."""

from dataclasses import dataclass

from pdsuite.packetdrill.items import Call, Item, Packet
from pdsuite.packetdrill.reader import parse_items_until_syntax_error
from pdsuite.programs.protocol import Cause


@dataclass(frozen=True, slots=True)
class AwaitedPacket:
    """An expected packet, and the moments between which it was awaited, in microseconds; None where nothing says so."""

    packet: Packet
    first: int | None
    last: int | None


@dataclass(frozen=True, slots=True)
class FailingLine:
    """A failing line: the inputs that act up to it, the packets expected before it, and when it fails if that is known.

    Moments are in microseconds after the start of the script.
    """

    line: int
    inputs: int
    packets: int
    moment: int | None
    expected: AwaitedPacket | None = None
    actual: Packet | None = None


def failing_line_of(script: str, line: int, cause: Cause) -> FailingLine | None:
    """The failing line of a script, as the program that explains reports it; None where the text has no such event."""
    items = [it for it in parse_items_until_syntax_error(script).items if isinstance(it.what, Packet | Call)]
    expected, actual = _parse_packet_of_cause_key(cause, "script_packet"), _parse_packet_of_cause_key(
        cause, "actual_packet"
    )
    place = _index_of_failing_event(items, line, expected)
    if place is None:
        return None
    before = [it for it in items[:place] if _is_input(it)]
    is_input = _is_input(items[place])
    sent = _integer_of_cause_key_or_none(cause, "sent_us")
    first = _integer_of_cause_key_or_none(cause, "awaited_from_us")
    if first is None:
        first = sent
    last = _integer_of_cause_key_or_none(cause, "awaited_until_us") if "awaited_until_us" in cause else first
    return FailingLine(
        line,
        len(before) + is_input,
        place - len(before),
        last if sent is None else sent,
        None if expected is None else AwaitedPacket(expected, first, last),
        actual,
    )


def _index_of_failing_event(items: list[Item], line: int, expected: Packet | None) -> int | None:
    """The event at a line: of several the first that is the expected packet, or else the first that is an input."""
    here = [number for number, it in enumerate(items) if it.line == line]
    fit = [it for it in here if (items[it].what == expected if expected is not None else _is_input(items[it]))]
    return next(iter(fit or here), None)


def _is_input(item: Item) -> bool:
    return not isinstance(item.what, Packet) or item.what.is_inbound


def _parse_packet_of_cause_key(cause: Cause, key: str) -> Packet | None:
    """A packet of the program's words."""
    text = cause.get(key)
    if not isinstance(text, str):
        return None
    return next((it.what for it in parse_items_until_syntax_error(text).items if isinstance(it.what, Packet)), None)


def _integer_of_cause_key_or_none(cause: Cause, key: str) -> int | None:
    value = cause.get(key)
    return value if isinstance(value, int) else None
