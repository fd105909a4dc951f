"""A peer that takes what a sender sends, and acknowledges it."""

from collections.abc import Iterator

from pdsuite.packetdrill.items import Packet, TcpOption
from pdsuite.search.inputs import make_dataless_inbound_packet
from pdsuite.search.scenario import IrregularPacket, Irregularity, Scenario

_MOST_BLOCKS = 3
_MOST_NUMBER = 2_147_483_647
_MOST_SHIFT = 14
_MOST_WINDOW = 65_535

OctetRange = tuple[int, int]


class Peer:
    """The peer of one connection: what it has taken, and what it has sent. Numbers are those of the sender's octets."""

    def __init__(self, scenario: Scenario) -> None:
        self._receiver = scenario.receiver
        self._edge = int(str(dict(scenario.settings).get("rcv_wnd", 65_535)))
        self._shift = min([it.numbers[0] for it in scenario.handshake.options if it.name == "wscale"][:1] or [0])
        self.next = 1
        self.top = 1
        self.waiting = 0
        self._number = 1
        self._acked = 1
        self._acks = 0
        self._spans: list[OctetRange] = []
        self._newest: OctetRange | None = None

    def resume_at_numbers(self, una: int, top: int, number: int) -> None:
        """Goes on where octets up to a number are acknowledged, others were sent, and its own number is this."""
        self.next = self._acked = una
        self.top = top
        self._number = number

    def receive_segment_and_decide_ack(self, span: OctetRange) -> bool:
        """Takes a segment from the network; whether it is acknowledged at once."""
        start, end = span
        self.top = max(self.top, end)
        before = self.next
        self._newest = span if end > self.next else None
        self._note_taken_octets(span)
        self.waiting += 1
        is_in_order = start == before and not self._spans
        return not is_in_order or self.waiting >= self._receiver.each

    def make_ack(self) -> Packet:
        """The ACK of all that was taken."""
        self.waiting = 0
        self._acked = max(self._acked, self.next)
        ack = make_dataless_inbound_packet(".", self._number, self.next, self.window_field, self._sack_option())
        self._acks += 1
        return ack

    @property
    def ack_count(self) -> int:
        """How many ACKs were sent."""
        return self._acks

    @property
    def window_field(self) -> int:
        """The field of its window, shifted as it offered."""
        octets = next(octets for first, octets in reversed(self._receiver.windows) if first <= self._acks)
        return min(-(-octets >> min(self._shift, _MOST_SHIFT)), _MOST_WINDOW)

    def make_irregular_packet_and_count_fin(self, it: IrregularPacket) -> Packet:
        """An irregular packet."""
        made = self._build_irregular_packet(it)
        if it.kind in (Irregularity.FIN, Irregularity.OLD_FIN):
            self._number = 2
        return made

    def _build_irregular_packet(self, it: IrregularPacket) -> Packet:
        number, ack, own = it.number, self._acked, self._number
        match it.kind:
            case Irregularity.OLD_ACK:
                return make_dataless_inbound_packet(".", own, max(ack - 1 - number, 0), self.window_field)
            case Irregularity.EARLY_ACK:
                return make_dataless_inbound_packet(
                    ".", own, min(self.top + 1 + number, _MOST_NUMBER), self.window_field
                )
            case Irregularity.SAME_ACK:
                return make_dataless_inbound_packet(".", own, ack, self.window_field, self._sack_option())
            case Irregularity.UPDATE:
                return make_dataless_inbound_packet(".", own, ack, number % 65_536, self._sack_option())
            case Irregularity.NEWER:
                return make_dataless_inbound_packet(".", own + 1 + number % 1_000, ack, self.window_field)
            case Irregularity.BARE:
                return make_dataless_inbound_packet("-", own, None, self.window_field)
            case Irregularity.OUTSIDE | Irregularity.RESET_FAR:
                flags = "." if it.kind is Irregularity.OUTSIDE else "R"
                return make_dataless_inbound_packet(
                    flags, own + self._edge + number % 3 - 1, ack if flags == "." else None, self.window_field
                )
            case Irregularity.BELOW:
                return make_dataless_inbound_packet(".", own - 1, ack, self.window_field)
            case Irregularity.RESET:
                return make_dataless_inbound_packet(
                    "R" if number % 2 else "R.", own, None if number % 2 else ack, self.window_field
                )
            case Irregularity.RESET_NEAR:
                return make_dataless_inbound_packet("R", own + 1 + number % max(self._edge, 2), None, self.window_field)
            case Irregularity.FIN:
                return make_dataless_inbound_packet("F.", own, self.next, self.window_field)
            case Irregularity.OLD_FIN:
                return make_dataless_inbound_packet("F.", own, max(ack - 1 - number, 0), self.window_field)
        return make_dataless_inbound_packet(".", own, ack, self.window_field, tuple(self._irregular_sack_options(it)))

    def _irregular_sack_options(self, it: IrregularPacket) -> Iterator[TcpOption]:
        """Blocks that have other octets than those that were taken."""
        number, ack = it.number, self._acked
        if it.kind is Irregularity.BLOCK_AFTER_END:
            yield TcpOption("eol")
        if it.kind is Irregularity.BLOCK_BELOW:
            yield TcpOption("sack", (max(ack - 1 - number, 0), ack))
        elif it.kind is Irregularity.BLOCK_ABOVE:
            yield TcpOption("sack", (max(self.top - number, ack), self.top + 1 + number))
        elif it.kind is Irregularity.SMALL_BLOCKS:
            step = max((self.top - ack) // (_MOST_BLOCKS + 1), 2)
            lefts = [ack + place * step for place in range(_MOST_BLOCKS, 0, -1)]
            yield TcpOption("sack", tuple(at for left in lefts for at in (left, left + min(1 + number, step - 1))))
        else:
            left = ack + number % max(self.top - ack, 1)
            yield TcpOption("sack", (left, min(left + 1_000, max(self.top, left + 1))))

    def _sack_option(self) -> tuple[TcpOption, ...]:
        """The SACK option: the block that was taken last comes first."""
        if not self._receiver.has_blocks or not self._spans:
            return ()
        spans = list(self._spans)
        if self._newest is not None:
            within = next((it for it in spans if it[0] <= self._newest[0] and self._newest[1] <= it[1]), None)
            first = within if self._receiver.joins_blocks or within is None else self._newest
            spans = [it for it in [first, *reversed(spans)] if it is not None]
            spans = list(dict.fromkeys(spans)) if self._receiver.joins_blocks else spans[:1]
        numbers = tuple(number for span in spans[:_MOST_BLOCKS] for number in span)
        return (TcpOption("sack", numbers),)

    def _note_taken_octets(self, span: OctetRange) -> None:
        """Notes octets as taken, and moves on over those without a gap."""
        start, end = max(span[0], self.next), span[1]
        if start >= end:
            return
        apart = [it for it in self._spans if it[1] < start or end < it[0]]
        joined = [it for it in self._spans if not (it[1] < start or end < it[0])]
        start = min([start, *(it[0] for it in joined)])
        end = max([end, *(it[1] for it in joined)])
        self._spans = sorted([*apart, (start, end)])
        if start <= self.next:
            self.next = end
            self._spans = apart
