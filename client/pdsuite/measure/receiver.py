"""The peer of a modelled transfer: what it has taken, and what it acknowledges (RFC 5681, 4.2; RFC 2018, 4)."""

from dataclasses import dataclass

# So many blocks fit beside timestamps.
_MOST_BLOCKS = 3

OctetRange = tuple[int, int]


@dataclass(frozen=True, slots=True)
class Ack:
    """An acknowledgment: of all octets below a number, and blocks above it, that with the newest octets first."""

    number: int
    blocks: tuple[OctetRange, ...] = ()


class Receiver:
    """Takes segments, and says what it acknowledges: each so many in order, and at once where one is missing."""

    def __init__(self, every: int, has_sack: bool) -> None:
        self._every = every
        self._has_sack = has_sack
        # The octet that is awaited, how many octets came that were new, and how many segments wait for an ACK.
        self.next = 1
        self.taken = 0
        self.waiting = 0
        # The octets that came above a gap, in ranges apart from one another, the newest first.
        self._spans: list[OctetRange] = []

    def receive_segment_and_check_immediate_ack(self, span: OctetRange) -> bool:
        """Takes a segment; whether it has to be acknowledged at once."""
        begin = self.next
        had_gap = bool(self._spans)
        self._merge_received_range_and_advance_next(span)
        self.waiting += 1
        is_in_order = span[0] <= begin < span[1] and not had_gap
        return not is_in_order or self.waiting >= self._every

    def make_ack_and_reset_waiting(self) -> Ack:
        """The acknowledgment of all that came."""
        self.waiting = 0
        return Ack(self.next, tuple(self._spans[:_MOST_BLOCKS]) if self._has_sack else ())

    def _merge_received_range_and_advance_next(self, span: OctetRange) -> None:
        start, end = max(span[0], self.next), span[1]
        if start >= end:
            return
        joined = [it for it in self._spans if start <= it[1] and it[0] <= end]
        apart = [it for it in self._spans if it not in joined]
        whole = (min([start, *(it[0] for it in joined)]), max([end, *(it[1] for it in joined)]))
        self.taken += whole[1] - whole[0] - sum(right - left for left, right in joined)
        if whole[0] == self.next:
            self.next, self._spans = whole[1], apart
        else:
            self._spans = [whole, *apart]
