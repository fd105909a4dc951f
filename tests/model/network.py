"""A peer and a network: which segments arrive, whether each is acknowledged at once, and when ACKs come back."""

import random
from collections.abc import Iterator
from dataclasses import dataclass, field

from model.sender import Segment
from model.spans import Span, Spans, joined

MILLISECOND = 1_000
MOST_BLOCKS = 3


@dataclass(frozen=True, slots=True)
class Ack:
    """An ACK of the peer: the window in octets, and its blocks, the newest first."""

    number: int
    window: int
    blocks: tuple[Span, ...]


@dataclass(frozen=True, slots=True)
class Path:
    """A path: its round trip in microseconds, and how probable it is that a segment or an ACK is lost, or late."""

    round_trip: int
    loss: float
    ack_loss: float
    lateness: float
    burst: range  # of these segments, counted from 0, each is lost


@dataclass(slots=True)
class Peer:
    """A peer that acknowledges each so many segments, or after a while."""

    each: int
    windows: tuple[int, ...]
    has_sack: bool
    received: Spans = field(default_factory=list)  # from `next` on
    newest: list[int] = field(default_factory=list)  # where segments began that came out of order, the newest first
    next: int = 1
    waiting: int = 0
    acks: int = 0

    def take(self, span: Span) -> bool:
        """A segment has come; whether it is acknowledged at once (RFC 5681, section 4.2)."""
        is_in_order = span[0] == self.next and not self.received
        if span[0] > self.next:
            self.newest.insert(0, span[0])
        self.received = joined([*self.received, span])
        while self.received and self.received[0][0] <= self.next:
            self.next = max(self.next, self.received.pop(0)[1])
        self.waiting += 1
        return not is_in_order or self.waiting >= self.each

    def acknowledge(self) -> Ack:
        """The ACK of what has come (RFC 2018, section 4)."""
        self.waiting = 0
        self.acks += 1
        blocks = tuple(dict.fromkeys(self._blocks()))[:MOST_BLOCKS] if self.has_sack else ()
        return Ack(self.next, self.windows[min(self.acks, len(self.windows)) - 1], blocks)

    def _blocks(self) -> Iterator[Span]:
        for place in self.newest:
            yield from (it for it in self.received if it[0] <= place < it[1])


@dataclass(slots=True)
class Network:
    """Decides by chance what comes of each segment and of each ACK."""

    dice: random.Random
    path: Path
    count: int = 0

    def arrival(self, segment: Segment) -> int | None:
        """When a segment reaches the peer, if it does."""
        self.count += 1
        if self.count - 1 in self.path.burst or self.dice.random() < self.path.loss:
            return None
        return segment.at + self.path.round_trip // 2 + self._draw_lateness()

    def back(self, now: int) -> int | None:
        """When an ACK that leaves now reaches the sender, if it does."""
        if self.dice.random() < self.path.ack_loss:
            return None
        return now + self.path.round_trip - self.path.round_trip // 2 + self._draw_lateness()

    def _draw_lateness(self) -> int:
        """By how much something is late."""
        if self.dice.random() >= self.path.lateness:
            return 0
        return self.dice.randrange(1, self.path.round_trip)
