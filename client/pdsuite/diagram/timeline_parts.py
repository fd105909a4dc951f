"""The parts of a time-sequence diagram, as values.

Moments are in microseconds after the start of the run; octets are sequence numbers as scripts have them.
"""

from dataclasses import dataclass
from enum import Enum


class SegmentKind(Enum):
    """The kind of a segment that leaves, by the octets that it has."""

    NEW = "new"  # octets that weren't sent before
    AGAIN = "again"  # octets that were
    EMPTY = "empty"  # none: an acknowledgment or a reset


class Flag(Enum):
    """A flag that is marked."""

    NONE = ""
    SYN = "SYN"
    FIN = "FIN"
    RST = "RST"


@dataclass(frozen=True, slots=True)
class Segment:
    """A segment that leaves, from its first octet to the number after its last; SYN and FIN count as one octet."""

    at: int
    start: int
    end: int
    kind: SegmentKind
    flag: Flag = Flag.NONE
    is_later: bool = False  # after the failing line


@dataclass(frozen=True, slots=True)
class Arrival:
    """A segment of the peer's that arrives, at the octet that it acknowledges, or else where acknowledged ones end."""

    at: int
    octet: int
    flag: Flag = Flag.NONE
    is_duplicate: bool = False
    is_later: bool = False
    is_dropped: bool = False  # its FIN or RST isn't taken


@dataclass(frozen=True, slots=True)
class SackBlock:
    """A SACK block, at the moment at which it arrives."""

    at: int
    start: int
    end: int
    is_later: bool = False


@dataclass(frozen=True, slots=True)
class Stair:
    """A stair: a number from a moment on, or None where there is none from there on."""

    at: int
    value: int | None
    is_later: bool = False


@dataclass(frozen=True, slots=True)
class Note:
    """Words for what happens at a moment."""

    at: int
    words: str
    is_later: bool = False


@dataclass(frozen=True, slots=True)
class RecoverySpan:
    """The time of a recovery from a loss."""

    begin: int
    end: int
    is_later: bool = False


@dataclass(frozen=True, slots=True)
class ExpectedSegment:
    """The packet that a failing line expects: the moments between which it was awaited, and its octets."""

    first: int
    last: int
    start: int
    end: int


@dataclass(frozen=True, slots=True)
class FailedExpectation:
    """A failing line: when it fails, the packet that it expects, and the one that was sent in its place."""

    line: int
    at: int
    expected: ExpectedSegment | None = None
    actual: Segment | None = None


@dataclass(frozen=True)
class Timeline:
    """All strokes of a diagram, each kind in the order of time, from the first packet on."""

    begin: int
    end: int
    segments: tuple[Segment, ...]
    arrivals: tuple[Arrival, ...]
    blocks: tuple[SackBlock, ...]
    acknowledged: tuple[Stair, ...]
    edge: tuple[Stair, ...]
    cwnd: tuple[Stair, ...]
    ssthresh: tuple[Stair, ...]
    flight_size: tuple[Stair, ...]
    pipe: tuple[Stair, ...]
    spans: tuple[RecoverySpan, ...]
    notes: tuple[Note, ...]
    failure: FailedExpectation | None = None

    @property
    def has_later_events(self) -> bool:
        """Whether anything happens after the failing line."""
        return any(it.is_later for it in self.segments) or any(it.is_later for it in self.arrivals)
