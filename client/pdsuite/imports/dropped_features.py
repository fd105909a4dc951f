"""Which feature that an import dropped acts at a line at which a script fails, as far as the script itself shows it."""

from collections.abc import Sequence
from dataclasses import dataclass

from pdsuite.packetdrill.items import Call, Packet
from pdsuite.packetdrill.layout import Event

_DUPLICATES = 3
_PURE = frozenset("P.")
# Features by the names that an import gives them, and what they do.
_RACK = "RACK acts here: it sends again by time, before three duplicates"
_TLP = "TLP acts here: it sends after two round trips without an ACK"
_FRTO = "F-RTO acts here: after an expiry it sends new octets first"
_CONTROL = "congestion control by name acts here: it leaves another part of cwnd at a loss"
_PACING = "pacing acts here, or a queue of the device: packets are spaced out"
_OFFLOAD = "offload acts here: it sets P at the end of each piece"
_DSACK = "DSACK acts here: a block tells what came twice"
_BUFFERS = "buffers act here: they hold another count of octets"


def dropped_feature_explaining_failure(events: Sequence[Event], place: int, kind: str, is_early: bool) -> str | None:
    """The feature that acts at an event, by whose field of this kind a script fails; None where none is known.

    `is_early` means that the packet left before its time.
    """
    event = events[place]
    packet = event.item.what
    if isinstance(packet, Call):
        return _BUFFERS if packet.name == "write" else None
    if not isinstance(packet, Packet) or packet.is_inbound:
        return None
    if kind == "flags" and set(packet.flags) <= _PURE:
        return _OFFLOAD
    if packet.length == 0:
        return _DSACK if any(it.name == "sack" for it in packet.options) else None
    past = _History()
    for before in events[:place]:
        past.take_event(before)
    is_paced = is_early and packet.start >= past.top and not past.is_repairing_loss_since_resend
    return _PACING if is_paced else _feature_sending_data(packet, past, _is_later_than_event_before(event))


def _feature_sending_data(packet: Packet, past: "_History", waits: bool) -> str | None:
    """The feature, if any, that lets octets leave: again or new ones, after a wait or at an input."""
    is_again = packet.start < past.top
    if waits and past.una < past.top:
        return _TLP if packet.end >= past.top else _RACK
    if is_again and not past.is_repairing_loss_since_resend:
        return _RACK if max(past.duplicates, past.blocks) < _DUPLICATES else _CONTROL
    if past.has_expired and not is_again:
        return _FRTO
    return _CONTROL if past.is_repairing_loss_since_resend else None


def _is_later_than_event_before(event: Event) -> bool:
    """Whether an event comes later than the one before it."""
    time = event.item.time
    return time is not None and time.is_relative and (time.first is None or time.first > 0)


@dataclass
class _History:
    """The state before a place: octets acknowledged and sent, duplicates, SACK blocks, and the repair of a loss."""

    una: int = 1
    top: int = 1
    duplicates: int = 0
    blocks: int = 0
    lost: int = 1  # the repair of a loss ends there
    has_expired: bool = False

    @property
    def is_repairing_loss_since_resend(self) -> bool:
        """Whether a loss is repaired."""
        return self.una < self.lost

    def take_event(self, event: Event) -> None:
        """Takes the next event."""
        packet = event.item.what
        if not isinstance(packet, Packet) or "S" in packet.flags:
            return
        if packet.is_inbound:
            self._take_peer_packet(packet)
        elif packet.length and packet.start < self.top:
            self.has_expired = self.has_expired or (_is_later_than_event_before(event) and packet.start == self.una)
            self.lost = self.top
        elif packet.length:
            self.top = packet.end

    def _take_peer_packet(self, packet: Packet) -> None:
        """Takes a packet of the peer."""
        self.blocks = sum(len(it.numbers) // 2 for it in packet.options if it.name == "sack")
        if packet.ack is None or packet.ack <= self.una:
            self.duplicates += self.una < self.top
            return
        self.una, self.duplicates = packet.ack, 0
        self.has_expired = self.has_expired and self.is_repairing_loss_since_resend
