"""A modelled link in virtual time: a rate, a drop-tail queue before it, and what is lost or late past it."""

from collections import deque
from dataclasses import dataclass
from enum import Enum
from random import Random

from pdsuite.measure.paths import HEADER, NetworkPath

_MICROSECOND = 1_000  # nanoseconds
_OCTET = 8_000_000_000  # nanoseconds at one bit a second


class PacketFate(Enum):
    """The fate of a packet."""

    ARRIVES = "arrives"
    LATE = "arrives late"  # others may overtake it
    OVERFLOW = "finds the queue full"
    LOST = "is lost"


@dataclass(frozen=True, slots=True)
class CarriedPacket:
    """The fate of a packet, when it reaches the peer, in microseconds, and how long it waited, in nanoseconds."""

    fate: PacketFate
    at: int = 0
    waited: int = 0

    @property
    def arrives(self) -> bool:
        return self.fate in (PacketFate.ARRIVES, PacketFate.LATE)


class LossModel:
    """Which packets are lost: each for itself, or in bursts by Gilbert and Elliott's model, in time.

    A good and a bad state take turns, each for a time that is drawn, whatever is sent; in the bad one a share is lost.
    A packet takes as many draws whatever becomes of it. So equal seeds lose packets of equal numbers, and in bursts
    packets of equal moments.
    """

    def __init__(self, path: NetworkPath, seed: str) -> None:
        self._path = path
        self._single, self._turns, self._burst = (Random(f"{seed} {it}") for it in ("single", "turns", "burst"))
        # The state, and until when it lasts, in microseconds.
        self._is_bad = True
        self._until = 0.0

    def is_next_lost(self, at: int) -> bool:
        """Whether the next packet is lost, which passes at a moment in microseconds, no sooner than the last."""
        path = self._path
        while path.burst_us and self._until <= at:
            self._is_bad = not self._is_bad
            self._until += self._turns.expovariate(1 / (path.burst_us if self._is_bad else path.burst_gap_us))
        in_burst = self._burst.random() < path.burst_loss and self._is_bad and bool(path.burst_us)
        return self._single.random() < path.loss or in_burst


class Link:
    """The bottleneck of a path. Packets come in the order of moments."""

    def __init__(self, path: NetworkPath, seed: str) -> None:
        self._path = path
        self._losses = LossModel(path, f"{seed} loss")
        self._late = Random(f"{seed} late")
        # When the last packet that it took has left it, and when each that waits begins to leave, with its octets.
        self._free = 0
        self._waiting: deque[tuple[int, int]] = deque()
        self._queued = 0

    def carry_packet(self, at: int, octets: int) -> CarriedPacket:
        """Carries a packet with so many octets, headers too, that leaves at a moment in microseconds; its fate."""
        now = at * _MICROSECOND
        is_lost = self._losses.is_next_lost(max(now, self._free) // _MICROSECOND)
        is_late = self._late.random() < self._path.reorder
        self._empty_queue_until(now)
        if now < self._free and self._queued + octets > self._path.queue:
            return CarriedPacket(PacketFate.OVERFLOW)
        begin = max(now, self._free)
        self._free = begin + self._nanoseconds_to_send(octets)
        if begin > now:
            self._waiting.append((begin, octets))
            self._queued += octets
        if is_lost:
            return CarriedPacket(PacketFate.LOST, waited=begin - now)
        more = self._path.reorder_us if is_late else 0
        arrival = -(-self._free // _MICROSECOND) + self._path.delay_us + more
        return CarriedPacket(PacketFate.LATE if is_late else PacketFate.ARRIVES, arrival, begin - now)

    def earliest_arrival_if_leaving_at_or_after(self, at: int) -> int:
        """A moment before which nothing that leaves from this one on reaches the peer, in microseconds."""
        begin = max(at * _MICROSECOND, self._free)
        return (begin + self._nanoseconds_to_send(HEADER + 1)) // _MICROSECOND + self._path.delay_us

    def _nanoseconds_to_send(self, octets: int) -> int:
        """How long it takes until so many octets have left, in nanoseconds."""
        return -(-octets * _OCTET // self._path.rate)

    def _empty_queue_until(self, now: int) -> None:
        """Takes out of the queue what has begun to leave."""
        while self._waiting and self._waiting[0][0] <= now:
            self._queued -= self._waiting.popleft()[1]
