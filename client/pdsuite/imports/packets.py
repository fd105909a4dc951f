"""Packets that leave, as this profile sends them: cut at SMSS, with P as this sender sets it, without a window."""

from collections.abc import Iterable, Sequence
from dataclasses import dataclass, replace

from pdsuite.imports.calls import octets_to_write_or_zero
from pdsuite.packetdrill.items import Call, Item, Packet

NO_MSS = 536
# The least MSS of a peer that the sender takes (docs/SENDER.md).
LEAST_SMSS = 64

CUT = "packets longer than SMSS are cut at it"
PUSH = "flag P as this sender sets it"
WINDOW = "the value of the window isn't compared"


@dataclass(frozen=True, slots=True)
class Write:
    """A write: the number after its last octet, and its moment, where that is known."""

    end: int
    moment: int | None


@dataclass(frozen=True, slots=True)
class Sending:
    """The facts about an expected packet: SMSS, its moment, the writes before it, and how exact moments are."""

    smss: int
    moment: int | None
    writes: Sequence[Write]
    tolerance: int


def script_smss_from_first_syn(items: Iterable[Item], mss: int) -> int:
    """The lesser of the sender's MSS and the peer's, by the first SYN (RFC 9293, section 3.7.1)."""
    for item in items:
        if isinstance(item.what, Packet) and item.what.is_inbound:
            return min(mss, mss_of_syn(item.what))
    return mss


def fixed_moments_of_items(items: Sequence[Item]) -> list[int | None]:
    """The moment of each item in microseconds after the start; None where no text has it."""
    moments: list[int | None] = []
    base: int | None = 0
    for item in items:
        time = item.time
        if time is not None:
            if not time.is_single_moment or time.first is None:
                base = None
            elif not time.is_relative:
                base = time.first
            elif base is not None:
                base += time.first
        moments.append(base)
    return moments


def write_calls_before_each_item(items: Sequence[Item], moments: Sequence[int | None]) -> list[tuple[Write, ...]]:
    """The writes before each item, as far as their calls took octets."""
    writes: tuple[Write, ...] = ()
    before = []
    for item, moment in zip(items, moments):
        before.append(writes)
        if isinstance(item.what, Call) and octets_to_write_or_zero(item.what) and item.what.result > 0:
            end = (writes[-1].end if writes else 1) + item.what.result
            writes = (*writes, Write(end, moment))
    return before


def packets_as_sent(packet: Packet, sending: Sending) -> tuple[tuple[Packet, ...], tuple[str, ...]]:
    """The packets that this profile sends in the place of an expected one, and what was changed."""
    changes = []
    bare = replace(packet, win=None)
    if packet.win is not None:
        changes.append(WINDOW)
    pieces = _cut_at_smss(bare, sending)
    if len(pieces) > 1:
        changes.append(CUT)
    pushed = tuple(_with_push_flag_as_sender_sets_it(it, sending) for it in pieces)
    if any(one.flags != other.flags for one, other in zip(pieces, pushed)):
        changes.append(PUSH)
    return pushed, tuple(changes)


def count_of_pieces(packet: Packet, smss: int) -> int:
    """How many packets an expected one becomes."""
    if packet.length <= smss or smss < LEAST_SMSS or "S" in packet.flags:
        return 1
    return -(-packet.length // smss)


def _cut_at_smss(packet: Packet, sending: Sending) -> list[Packet]:
    """The pieces of a packet; the last one alone keeps F and P."""
    if count_of_pieces(packet, sending.smss) == 1:
        return [packet]
    starts = range(packet.start, packet.end, sending.smss)
    flags = "".join(it for it in packet.flags if it not in "FP")
    pieces = [replace(packet, start=it, end=it + sending.smss, flags=flags) for it in starts]
    return [*pieces[:-1], replace(pieces[-1], end=packet.end, flags=packet.flags)]


def _with_push_flag_as_sender_sets_it(packet: Packet, sending: Sending) -> Packet:
    if not set(packet.flags).isdisjoint("SR"):
        return packet
    is_pushed = _has_last_queued_octet_if_known(packet, sending)
    if is_pushed is None or is_pushed == ("P" in packet.flags):
        return packet
    letters = [it for it in packet.flags if it != "P"]
    if is_pushed:
        # In the order in which scripts write them: FP.
        letters.insert(len(letters) - letters.count("."), "P")
    return replace(packet, flags="".join(letters))


def _has_last_queued_octet_if_known(packet: Packet, sending: Sending) -> bool | None:
    """Whether the packet has the last octet that is queued when it leaves.

    None where its last octet is that of an earlier write, and nothing says whether it left before the next one.
    """
    if packet.length == 0:
        return False
    queued = sending.writes[-1].end if sending.writes else 1
    if packet.end == queued:
        return True
    after = [it for it in sending.writes if it.end > packet.end]
    if packet.end not in {it.end for it in sending.writes}:
        return False
    moment = after[0].moment
    if moment is None or sending.moment is None or sending.moment - moment <= sending.tolerance:
        return None
    return False


def mss_of_syn(syn: Packet) -> int:
    """The MSS that a SYN has: the first that counts (docs/SENDER.md)."""
    for option in syn.options:
        if option.name == "eol":
            break
        if option.name == "mss":
            return option.numbers[0]
    return NO_MSS
