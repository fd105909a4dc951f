"""Quantities of a run by a sender: its segments, the octets sent again, its expiries, and when all was acknowledged."""

import re
from collections.abc import Iterable, Iterator, Mapping, Sequence
from dataclasses import astuple, dataclass, fields
from enum import StrEnum

from pdsuite.compare.comparison import ComparedScript
from pdsuite.packetdrill.items import SECOND

_EVENT = re.compile(r"^(\S+ > (\S+) (\d+):(\d+)\(\d+\)[^\n]*)?[^\n]*\n//= at (\d+)\.(\d{6}) ([^\n]*)$", re.MULTILINE)
_UNA = re.compile(r" una:(\d+)")
_TIMER = " sent_by:timer"


class Quantity(StrEnum):
    """A quantity, by the word that sorts scripts by it."""

    SEGMENTS = "segments"
    AGAIN = "again"
    EXPIRIES = "expiries"
    TIME = "time"


@dataclass(frozen=True)
class Quantities:
    """Segments sent that have octets, a SYN or a FIN; octets sent again; expiries; and a time in microseconds.

    That is the moment at which the last octet was acknowledged that was, a SYN and a FIN too.
    """

    segments: int = 0
    again: int = 0
    expiries: int = 0
    time: int = 0

    def __add__(self, other: "Quantities") -> "Quantities":
        return Quantities(*(one + more for one, more in zip(astuple(self), astuple(other))))

    def quantities_by_name(self) -> Mapping[str, int]:
        """The quantities by their names."""
        return {it.name: getattr(self, it.name) for it in fields(self)}


def quantities_of_recording(recording: str) -> Quantities:
    """The quantities of a recording with its trace."""
    segments = again = expiries = acknowledged = una = top = 0
    for event in _EVENT.finditer(recording):
        if event[1]:
            start, end = int(event[3]), int(event[4]) + ("F" in event[2]) + ("S" in event[2])
            segments += start < end
            again += max(0, min(end, top) - start)
            top = max(top, end)
            expiries += _TIMER in event[7]
        found = _UNA.search(event[7])
        if found and int(found[1]) > una:
            una, acknowledged = int(found[1]), int(event[5]) * SECOND + int(event[6])
    return Quantities(segments, again, expiries, acknowledged)


@dataclass(frozen=True)
class QuantityChange:
    """The quantities of a script under both senders."""

    path: str
    before: Quantities
    after: Quantities

    def absolute_change(self, quantity: Quantity) -> int:
        """How much a quantity changed."""
        return abs(self.after.quantities_by_name()[quantity] - self.before.quantities_by_name()[quantity])


def sorted_quantity_changes(compared: Iterable[ComparedScript], quantity: Quantity) -> list[QuantityChange]:
    """The scripts whose quantities changed, the largest change of one of them first."""
    found = [it for it in _quantity_changes_where_both_recorded(compared) if it.before != it.after]
    return sorted(
        found, key=lambda it: (-it.absolute_change(quantity), *(-it.absolute_change(other) for other in Quantity))
    )


def summed_quantities_before_and_after(compared: Sequence[ComparedScript]) -> QuantityChange:
    """The sums over all scripts that both senders record."""
    both = list(_quantity_changes_where_both_recorded(compared))
    before, after = (sum((getattr(it, side) for it in both), Quantities()) for side in ("before", "after"))
    return QuantityChange("", before, after)


def _quantity_changes_where_both_recorded(compared: Iterable[ComparedScript]) -> Iterator[QuantityChange]:
    for it in compared:
        before, after = it.recordings
        if before and after:
            yield QuantityChange(it.path, quantities_of_recording(before), quantities_of_recording(after))
