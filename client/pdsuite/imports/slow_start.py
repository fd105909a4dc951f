"""By how much an ACK may widen cwnd in a script of a kernel: its slow start is played up to the first loss."""

from collections.abc import Iterable
from dataclasses import dataclass

from pdsuite.imports.assertions import Assertion, parse_assertions
from pdsuite.imports.calls import octets_to_write_or_zero
from pdsuite.packetdrill.items import SECOND, Call, Code, Item, Packet

# The limits that are tried, in segments; a kernel has none, and so the greatest counts first.
LIMITS = range(8, 0, -1)
# After so long a time the timer may have acted.
_LONG = SECOND // 5
_DUPLICATES = 3
_CWND = "tcpi_snd_cwnd"


def fitting_or_greatest_abc_limit(items: Iterable[Item], smss: int, initial_window: int) -> int:
    """The greatest limit under which just the packets leave that a script has; where there is none, the greatest."""
    play = _SlowStart(smss, dict.fromkeys(LIMITS, initial_window))
    for item in items:
        if not play.play_item_returning_whether_to_go_on(item):
            break
    play.drop_unfitting_limits()
    return next(iter(play.windows), LIMITS[0])


def initial_window_octets(word: object, smss: int) -> int:
    """The octets of cwnd at first (RFC 6928, section 2; RFC 5681, section 3.1)."""
    if word == "rfc6928":
        return min(10 * smss, max(2 * smss, 14_600))
    return smss * (2 if smss > 2_190 else 3 if smss > 1_095 else 4)


@dataclass
class _SlowStart:
    """The state of a sender: how far it has sent, and its cwnd under each limit that fits what leaves in the script."""

    smss: int
    windows: dict[int, int]
    una: int = 1
    top: int = 1
    queued: int = 1
    duplicates: int = 0
    room: int = 0  # the peer's window
    shift: int = 0
    has_sent: bool = False  # since the last input

    def play_item_returning_whether_to_go_on(self, item: Item) -> bool:
        """Plays an item; whether the play goes on after it."""
        if item.time is not None and (item.time.first is None or item.time.is_relative and item.time.first > _LONG):
            return False
        match item.what:
            case Packet() as packet if packet.is_inbound:
                self.drop_unfitting_limits()
                return self._play_inbound_returning_whether_to_go_on(packet)
            case Packet() as packet:
                return self._play_sent_returning_whether_to_go_on(packet)
            case Call() as call:
                self.drop_unfitting_limits()
                self.queued += max(0, call.result) if octets_to_write_or_zero(call) else 0
                return call.name != "close"
            case Code() as code:
                self._drop_limits_contradicting_asserted_cwnd(parse_assertions(code.text).assertions)
        return True

    def drop_unfitting_limits(self) -> None:
        """Leaves out limits under which something else would have left after the last input."""
        flight = self.top - self.una
        size = min(self.smss, self.queued - self.top)
        for limit, cwnd in list(self.windows.items()):
            most = min(cwnd + min(self.duplicates, _DUPLICATES - 1) * self.smss, self.room)
            is_due = flight + size <= most and (size == self.smss or 0 < size and flight == 0)
            if is_due or (self.has_sent and flight > most):
                del self.windows[limit]
        self.has_sent = False

    def _play_inbound_returning_whether_to_go_on(self, packet: Packet) -> bool:
        """Takes a packet of the peer, up to a loss or to one that no sender of data is sent."""
        if "S" in packet.flags:
            scales = [it.numbers[0] for it in packet.options if it.name == "wscale"]
            self.shift, self.room = scales[0] if scales else 0, packet.win or 0
            return True
        if packet.ack is None or packet.flags != "." or packet.length or packet.ack > self.top:
            return False
        blocks = [it.numbers for it in packet.options if it.name == "sack"]
        acked, room = packet.ack - self.una, (packet.win or 0) << self.shift
        if acked > 0:
            self.windows = {it: cwnd + min(acked, it * self.smss) for it, cwnd in self.windows.items()}
            self.una, self.duplicates = packet.ack, 0
        elif self.top > self.una and (blocks or room == self.room):
            self.duplicates += 1
        self.room = room
        sacked = sum(end - begin for it in blocks for begin, end in zip(it[::2], it[1::2]))
        return self.duplicates < _DUPLICATES and sacked < _DUPLICATES * self.smss

    def _play_sent_returning_whether_to_go_on(self, packet: Packet) -> bool:
        """Takes a packet of the sender, up to one that is sent again."""
        if packet.length and "S" not in packet.flags:
            if packet.start < self.top:
                return False
            self.top, self.has_sent = packet.end, True
        return True

    def _drop_limits_contradicting_asserted_cwnd(self, assertions: Iterable[Assertion]) -> None:
        """Leaves out limits under which cwnd isn't what code asserts."""
        for it in assertions:
            if it.name == _CWND:
                asserted_value = int(it.value)
                self.windows = {at: cwnd for at, cwnd in self.windows.items() if cwnd // self.smss == asserted_value}
