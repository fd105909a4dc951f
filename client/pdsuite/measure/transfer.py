"""One transfer over a modelled path: what a sender is made to send goes over the link, and the peer's ACKs come back.

The caller provides the sender: it gets inputs as lines of a script, and reports what left.
"""

import heapq
from collections.abc import Generator, Sequence
from dataclasses import dataclass, field
from itertools import count
from random import Random

from pdsuite.measure.link import Link, PacketFate
from pdsuite.measure.paths import HEADER, NetworkPath
from pdsuite.measure.receiver import Ack, OctetRange, Receiver
from pdsuite.measure.writer import TransferWriter
from pdsuite.packetdrill.items import SECOND
from pdsuite.search.inputs import EXACT

SYN_AT = 100_000
_HEADER_LINES = (
    EXACT,
    "0 socket(..., SOCK_STREAM, IPPROTO_TCP) = 3",
    "+0 bind(3, ..., ...) = 0",
    "+0 listen(3, 1) = 0",
)
# Comes after whatever else has a number.
_LAST = 1 << 30
# Changes nothing, and so lets the timer expire before it.
_TICK = "fcntl(4, F_SETFL, O_RDWR) = 0"


@dataclass(frozen=True, slots=True)
class SegmentDeparture:
    """A segment with octets that left at a moment, and whether the timer sent it."""

    at: int
    start: int
    end: int
    is_by_timer: bool = False


@dataclass(frozen=True, slots=True)
class SenderReply:
    """A sender's report after inputs: what left since the last reply, and when its timer expires, if it runs."""

    departures: tuple[SegmentDeparture, ...]
    expiry: int | None


@dataclass(frozen=True)
class TransferResult:
    """The result of a transfer. Times are in microseconds, that in the queue a mean.

    The time is that from the first write until the peer has all, without an idle time in between.
    """

    octets: int
    time: int
    segments: int
    segments_again: int
    octets_again: int
    expiries: int
    queue: float
    overflows: int
    losses: int
    lines: tuple[str, ...] = field(repr=False)  # of its inputs
    departures: tuple[SegmentDeparture, ...] = field(repr=False)

    def inputs_only_script_octets(self) -> bytes:
        """The script of its inputs alone."""
        return "".join(f"{it}\n" for it in self.lines).encode()

    @property
    def departures_stripped_of_cause(self) -> tuple[SegmentDeparture, ...]:
        """The segments that left, whatever sent them."""
        return tuple(SegmentDeparture(it.at, it.start, it.end) for it in self.departures)


class StalledTransferError(Exception):
    """That neither the sender nor the peer has anything to do, and not all was delivered."""


# Hands out inputs as lines, and gets what the sender tells.
TransferSteps = Generator[Sequence[str], SenderReply, TransferResult]


def play_transfer_as_generator(path: NetworkPath, size: int, seed: str, room: int) -> TransferSteps:
    """Plays a transfer of so many octets; the sender's buffer has this room."""
    return (yield from Transfer(path, size, seed, room).play_as_generator())


class Transfer:
    """The segments and ACKs on their way, in the order of moments, and what was counted."""

    def __init__(self, path: NetworkPath, size: int, seed: str, room: int) -> None:
        self._path = path
        self._link = Link(path, seed)
        self._lost_acks = Random(f"{seed} acks")
        self._receiver = Receiver(path.ack_every, path.sack)
        self._writer = TransferWriter(path, size, room)
        # Segments for the peer and ACKs for the sender, in their order; last of a moment comes a timer, as None.
        self._at_peer: list[tuple[int, int, OctetRange | None]] = []
        self._at_sender: list[tuple[int, int, Ack | None]] = []
        self._acks = count()
        # An ACK that waits for newer ones, and when what is due at the peer by itself is.
        self._gathered: Ack | None = None
        self._ack_due: int | None = None
        self._gather_due: int | None = None
        self._lines: list[str] = []
        self._now = 0
        self._departures: list[SegmentDeparture] = []
        self._waits: list[int] = []
        self._fates = {it: 0 for it in PacketFate}

    def play_as_generator(self) -> TransferSteps:
        reply = yield self._put_handshake_and_first_write_lines()
        self._carry_departures(reply)
        while not self._writer.is_all_acknowledged:
            reply = yield self._advance_until_next_inputs(reply.expiry)
            self._carry_departures(reply)
        return self._make_transfer_result()

    # ---- the sender

    def _put_handshake_and_first_write_lines(self) -> list[str]:
        """The lines up to the first write. No packet of the handshake is lost, and none waits."""
        path = self._path
        sack = ",sackOK" if path.sack else ""
        scale = f",nop,wscale {path.window_shift}" if path.window_shift else ""
        window = min(path.window, 65_535)
        self._lines += _HEADER_LINES
        self._append_line_and_advance_time(SYN_AT, f"< S 0:0(0) win {window} <mss {path.mss}{sack}{scale}>")
        at = self._link.earliest_arrival_if_leaving_at_or_after(SYN_AT) + path.delay_us
        self._append_line_and_advance_time(at, f"< . 1:1(0) ack 1 win {path.window_field}")
        self._append_line_and_advance_time(at, "accept(3, ..., ...) = 4")
        self._put_due_writes_and_schedule_next(at)
        return list(self._lines)

    def _advance_until_next_inputs(self, expiry: int | None) -> list[str]:
        """The next inputs, as lines: all that come before the peer could answer a segment that leaves from now on."""
        begin = len(self._lines)
        while len(self._lines) == begin:
            first = self._first_due_moment_at_sender(expiry)
            if first is None:
                raise StalledTransferError(
                    f"nothing is due, and {self._receiver.taken:,} of {self._writer.total:,} octets arrived"
                )
            horizon = self.earliest_peer_arrival_if_sent_at_or_after(first)
            is_delivered = self._deliver_to_peer_before_and_check_any(horizon)
            while self._at_sender and self._at_sender[0][0] < horizon + self._path.delay_us:
                at, _, ack = heapq.heappop(self._at_sender)
                if ack is not None:
                    self._put_ack_line_and_note_acknowledged(at, ack)
                self._put_due_writes_and_schedule_next(at)
            if not is_delivered and len(self._lines) == begin and first == expiry:
                self._append_line_and_advance_time(first, _TICK)
        return self._lines[begin:]

    def earliest_peer_arrival_if_sent_at_or_after(self, first: int) -> int:
        """A moment before which nothing reaches the peer that leaves from the first one on."""
        return self._link.earliest_arrival_if_leaving_at_or_after(first)

    def _first_due_moment_at_sender(self, expiry: int | None) -> int | None:
        """The first moment at which the sender may do something."""
        moments = [] if expiry is None else [expiry]
        if self._at_sender:
            moments.append(self._at_sender[0][0])
        if self._at_peer:
            moments.append(self._at_peer[0][0] + self._path.delay_us)
        return min(moments, default=None)

    def _put_ack_line_and_note_acknowledged(self, at: int, ack: Ack) -> None:
        blocks = " ".join(f"{left}:{right}" for left, right in ack.blocks)
        options = f" <nop,nop,sack {blocks}>" if blocks else ""
        self._append_line_and_advance_time(at, f"< . 1:1(0) ack {ack.number} win {self._path.window_field}{options}")
        self._writer.note_acknowledged_and_start_next_part(at, ack.number)

    def _put_due_writes_and_schedule_next(self, at: int) -> None:
        """Writes what is due and has room, and notes when more is due."""
        for octets in self._writer.take_due_write_sizes(at):
            self._append_line_and_advance_time(at, f"write(4, ..., {octets}) = {octets}")
        due = self._writer.take_next_wake_moment_if_new(at)
        if due is not None:
            heapq.heappush(self._at_sender, (due, _LAST, None))

    def _append_line_and_advance_time(self, at: int, what: str) -> None:
        self._lines.append(f"{_relative_time_text(at - self._now)} {what}")
        self._now = at

    def _carry_departures(self, reply: SenderReply) -> None:
        """Hands what left to the link."""
        for it in reply.departures:
            self._departures.append(it)
            carried = self._link.carry_packet(it.at, it.end - it.start + HEADER)
            self._fates[carried.fate] += 1
            if carried.fate is not PacketFate.OVERFLOW:
                self._waits.append(carried.waited)
            if carried.arrives:
                heapq.heappush(self._at_peer, (carried.at, len(self._departures), (it.start, it.end)))

    # ---- the peer

    def _deliver_to_peer_before_and_check_any(self, until: int) -> bool:
        """Lets come what reaches the peer before a moment; whether there was anything."""
        is_any = False
        while self._at_peer and self._at_peer[0][0] < until:
            at, _, span = heapq.heappop(self._at_peer)
            is_any = True
            if span is None:
                self._send_delayed_or_gathered_ack_if_due(at)
            elif self._receiver.receive_segment_and_check_immediate_ack(span):
                self._send_or_gather_ack(at)
            elif self._receiver.waiting == 1:
                self._ack_due = at + self._path.ack_delay_us
                self._wake_peer_at(self._ack_due)
            self._writer.note_delivered_and_sum_part_times(at, self._receiver.next)
        return is_any

    def _send_delayed_or_gathered_ack_if_due(self, at: int) -> None:
        """Has the peer act if a timer of its own is due: it acknowledges, or lets gathered ACKs go."""
        if self._ack_due == at:
            self._send_or_gather_ack(at)
        if self._gathered is not None and self._gather_due == at:
            ack, self._gathered = self._gathered, None
            self._schedule_ack_arrival_unless_lost(at, ack)

    def _send_or_gather_ack(self, at: int) -> None:
        """Sends an ACK, which may wait for newer ones on its way."""
        self._ack_due = None
        ack = self._receiver.make_ack_and_reset_waiting()
        if not self._path.ack_gather_us:
            self._schedule_ack_arrival_unless_lost(at, ack)
            return
        if self._gathered is None:
            self._gather_due = at + self._path.ack_gather_us
            self._wake_peer_at(self._gather_due)
        self._gathered = ack

    def _schedule_ack_arrival_unless_lost(self, at: int, ack: Ack) -> None:
        if self._lost_acks.random() >= self._path.ack_loss:
            heapq.heappush(self._at_sender, (at + self._path.delay_us, next(self._acks), ack))

    def _wake_peer_at(self, at: int) -> None:
        heapq.heappush(self._at_peer, (at, _LAST, None))

    # ---- what came of it

    def _make_transfer_result(self) -> TransferResult:
        top = 1
        segments = octets = 0
        for it in self._departures:
            segments += it.start < top
            octets += max(0, min(it.end, top) - it.start)
            top = max(top, it.end)
        return TransferResult(
            octets=self._receiver.taken,
            time=self._writer.time,
            segments=len(self._departures),
            segments_again=segments,
            octets_again=octets,
            expiries=len({it.at for it in self._departures if it.is_by_timer}),
            queue=sum(self._waits) / max(len(self._waits), 1) / 1_000,
            overflows=self._fates[PacketFate.OVERFLOW],
            losses=self._fates[PacketFate.LOST],
            lines=tuple(self._lines),
            departures=tuple(self._departures),
        )


def _relative_time_text(microseconds: int) -> str:
    """A time after the event before, as short as a script has it."""
    whole, part = divmod(microseconds, SECOND)
    digits = f"{part:06}".rstrip("0")
    return f"+{whole}.{digits}" if digits else f"+{whole}"
