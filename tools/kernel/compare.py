"""A packet of the kernel against the one that a script expects, field by field."""

from __future__ import annotations

from collections.abc import Set
from dataclasses import dataclass

from kernel.wire import SeenPacket
from pdsuite.packetdrill.items import Packet

FIELDS = ("time", "flags", "push", "seq", "ack", "win", "options")
LEAST_TOLERANCE = 0.010


@dataclass(frozen=True)
class TimeSpan:
    """The moments at which a packet may leave, with the tolerance; None for any."""

    first: float
    last: float

    def contains(self, at: float) -> bool:
        return self.first <= at <= self.last


@dataclass(frozen=True)
class Difference:
    """Where a run differs from its script."""

    line: int
    field: str
    words: str


def tolerance_from_awaited_seconds(awaited: float) -> float:
    """How far a time may be off: an eighth of what is awaited, but at least 10 ms.

    >>> [tolerance_from_awaited_seconds(it) for it in (0.0, 1.0)]
    [0.01, 0.125]
    """
    return max(LEAST_TOLERANCE, awaited / 8)


def has_expected_sequence_and_syn_fin_rst(expected: Packet, seen: SeenPacket) -> bool:
    """Whether a packet is the expected one, so that the run can go on where other fields differ."""
    kinds = frozenset("SFR")
    same_numbers = (expected.start, expected.length) == (seen.start, seen.length)
    return same_numbers and kinds & set(expected.flags) == kinds & seen.flags


def differing_fields(expected: Packet, seen: SeenPacket, span: TimeSpan | None, ignored: Set[str]) -> list[str]:
    """The fields in which a packet differs, in the order in which the program compares; `push` stands for the flag P.

    >>> seen = SeenPacket(0.0, frozenset("P."), 1, 1000, 1, 502, ())
    >>> differing_fields(Packet(False, ".", 1, 1001, 1, 257), seen, None, {"win"})
    ['push']
    """
    other = seen.flags ^ set(expected.flags)
    found = {
        "time": span is not None and not span.contains(seen.at),
        "flags": bool(other - {"P"}),
        "push": "P" in other,
        "seq": (expected.start, expected.length) != (seen.start, seen.length),
        "ack": expected.ack not in (None, seen.ack),
        "win": expected.win not in (None, seen.window),
        "options": not expected.takes_any_options and expected.options != seen.options,
    }
    return [it for it in FIELDS if found[it] and it not in ignored]
