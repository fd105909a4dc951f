"""The scoreboard: which octets were sent, acknowledged and SACKed, and what follows from that (RFC 6675, section 4)."""

from dataclasses import dataclass, field

from model.rules import DUP_THRESH
from model.spans import Span, Spans, gaps, joined, size, within


@dataclass(slots=True)
class Board:
    """The numbers that a sender sends by; those of SACKed octets are at or above `una`, and below `top`."""

    smss: int
    una: int
    next: int = 1
    top: int = 1
    end: int = 1
    sacked: Spans = field(default_factory=list)

    # ---- what happens

    def sent(self, end: int) -> None:
        """A segment was sent that ends here, and sending goes on from there."""
        self.next = end
        self.top = max(self.top, end)

    def acknowledge(self, number: int) -> None:
        """The octets below a number are acknowledged."""
        self.una = number
        self.next = max(self.next, number)
        self.sacked = within(self.sacked, number, self.top)

    def mark(self, start: int, end: int) -> bool:
        """The octets of a block are SACKed; whether one wasn't (RFC 2018; RFC 6675, section 2)."""
        before = size(self.sacked)
        self.sacked = joined([*self.sacked, *within([(start, end)], self.una, self.top)])
        return size(self.sacked) > before

    def skip_sacked_octets_at_next(self) -> None:
        """Sending goes on after the SACKed octets that it stands at."""
        for start, end in self.sacked:
            if start <= self.next < end:
                self.next = end

    # ---- what is so

    @property
    def flight(self) -> int:
        """FlightSize."""
        return self.top - self.una

    def free(self) -> Spans:
        """The octets that were sent and aren't SACKed."""
        return list(gaps(self.sacked, self.una, self.top))

    def lost_below(self) -> int:
        """The octets below this one that aren't SACKed are lost (IsLost)."""
        most = (DUP_THRESH - 1) * self.smss
        octets = 0
        for runs, (start, end) in enumerate(reversed(self.sacked), 1):
            octets += end - start
            if octets > most:
                return start + octets - most - 1
            if runs == DUP_THRESH:
                return start
        return 0

    def lost(self) -> Spans:
        """The octets that are lost."""
        edge = self.lost_below()
        return [it for it in self.free() if it[0] < edge]

    def pipe(self, high_rxt: int) -> int:
        """SetPipe: each octet that isn't lost counts, and once more each that was sent again."""
        free = self.free()
        return size(free) - size(self.lost()) + size(within(free, self.una, high_rxt))

    def holes_not_sent_again(self, high_rxt: int) -> Spans:
        """The octets that weren't sent again and lie below a SACKed one."""
        last = self.sacked[-1][1] if self.sacked else 0
        return within(self.free(), high_rxt, last)

    def first_hole_start(self, high_rxt: int) -> int | None:
        """The first of these."""
        return next((start for start, _ in self.holes_not_sent_again(high_rxt)), None)

    def first_lost_hole_start(self, high_rxt: int) -> int | None:
        """The first of these that is lost."""
        edge = self.lost_below()
        return next((start for start, _ in self.holes_not_sent_again(high_rxt) if start < edge), None)

    # ---- what may be sent

    def resent_segment_up_to_next_sacked(self, start: int) -> Span:
        """The segment that is sent again from here: up to the next SACKed octet."""
        above = [max(left, start) for left, right in self.sacked if right > start]
        return start, min([start + self.smss, self.top, *above])

    def rescue(self) -> Span | None:
        """The segment that ends with the last octet that isn't SACKed."""
        free = self.free()
        if not free:
            return None
        start, end = free[-1]
        return max(start, end - self.smss), end

    def new_segment_if_whole_in_rwnd(self, rwnd: int) -> Span | None:
        """A segment of octets that were never sent, where there are some and the peer's window takes it."""
        end = min(self.top + self.smss, self.end)
        return (self.top, end) if self.top < end <= self.una + rwnd else None
