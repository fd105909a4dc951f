"""A sender of data as the RFCs and docs/SENDER.md have it. Numbers are octets, moments microseconds.

It is made at the establishment, and takes calls of `write`, ACKs and moments; what it sends comes as segments.
"""

from collections.abc import Iterator, Sequence
from dataclasses import dataclass, field

from model.board import Board
from model.rules import SECOND, Rules
from model.spans import Span
from model.window import Ack, Known, Window


@dataclass(frozen=True, slots=True)
class Segment:
    """A segment with data that is sent."""

    at: int
    start: int
    end: int
    has_push: bool


@dataclass(frozen=True, slots=True)
class Start:
    """The establishment: moments in microseconds, windows in octets."""

    syn_at: int
    at: int
    is_resent: bool  # the SYN/ACK was sent again
    syn_window: int
    window: int


@dataclass(slots=True)
class Sender:
    """A sender: its scoreboard, its window, and its timer."""

    rules: Rules
    start: Start
    board: Board = field(init=False)
    window: Window = field(init=False)
    rwnd: int = 0
    most_window: int = 0
    srtt: int | None = None
    rttvar: int = 0
    rto: int = SECOND
    expiry: int | None = None
    timed: tuple[int, int, int] | None = None  # start and end of the segment that is timed, and when it left
    sent_at: int = 0  # when octets were last sent
    has_nagle: bool = field(init=False)
    recoveries: int = 0
    acknowledging: int = 0  # how many of them an ACK of new octets began

    def __post_init__(self) -> None:
        """RFC 9293, section 3.10.7.4; RFC 5681, section 3.1; RFC 6298, sections 2.2, 3 and 5.7."""
        start, rules = self.start, self.rules
        self.board = Board(rules.smss, una=1)
        self.has_nagle = rules.has_nagle
        self.window = Window(rules, rules.smss if start.is_resent else rules.initial_window, rules.first_ssthresh)
        self.rwnd = start.window
        self.most_window = max(start.syn_window, start.window)
        self.sent_at = start.syn_at
        if start.is_resent:
            self.rto = self._clamped_rto(3 * SECOND)
        else:
            self._sample(start.at - start.syn_at)

    # ---- what happens

    def write(self, now: int, count: int) -> list[Segment]:
        """Octets are queued."""
        self.board.end += count
        return [] if self.window.is_recovering else list(self._restart_if_idle_then_send_ready(now))

    def acknowledge(self, now: int, number: int, window: int, blocks: Sequence[Span]) -> list[Segment]:
        """An ACK of octets that were sent."""
        board = self.board
        if number < board.una:
            return []
        known = Known.of(board)
        board.acknowledge(number)
        has_new_sack = self._mark_blocks_and_answer_if_any_new(blocks)
        ack = Ack.on(board, known, window, window == self.rwnd, has_new_sack)
        if ack.acked:
            self._sample_and_restart_timer_after_ack(now)
        self.rwnd = window
        self.most_window = max(self.most_window, window)
        return list(self._respond(now, ack))

    def expire(self) -> list[Segment]:
        """The timer expires (RFC 6298, sections 5.4 to 5.6)."""
        assert self.expiry is not None
        now = self.expiry
        self.window.expire(self.board)
        self.timed = None
        self.rto = min(2 * self.rto, self.rules.most_rto)
        self.expiry = now + self.rto
        span = self.board.resent_segment_up_to_next_sacked(self.board.una)
        segment = self._send_and_start_timers_if_off(now, span)
        self.board.sent(span[1])
        return [segment]

    def pipe(self) -> int:
        """How many octets count as on the way."""
        return self.board.pipe(self.window.high_rxt)

    # ---- what an ACK leads to

    def _respond(self, now: int, ack: Ack) -> Iterator[Segment]:
        kind, span = self.window.take(self.board, ack)
        self.recoveries += kind in ("entry", "again")
        self.acknowledging += kind == "entry" and ack.acked > 0
        match kind:
            case "limited":
                yield from self._limited_transmit(now)
            case "entry":
                self.window.pace(self.pipe())
                first = self.window.take_first_segment_of_recovery(self.board)
                if first[0] < first[1]:  # else `una` is SACKed
                    yield self._send_and_start_timers_if_off(now, first)
                yield from self._step_c(now)
            case "step-c":
                self.window.pace(self.pipe())
                yield from self._step_c(now)
            case "segment" if span is not None:
                yield self._send_and_move_next_to_its_end(now, span)
            case "again" if span is not None:
                yield self._send_and_start_timers_if_off(now, span)
        if kind in ("ordinary", "again"):
            yield from self._restart_if_idle_then_send_ready(now)

    def _limited_transmit(self, now: int) -> Iterator[Segment]:
        """Limited transmit (RFC 6675, section 5, step 3; RFC 3042)."""
        pipe = self.pipe()
        while self.window.has_room(pipe) and (span := self.board.new_segment_if_whole_in_rwnd(self.rwnd)) is not None:
            yield self._send_and_move_next_to_its_end(now, span)
            pipe += span[1] - span[0]
            self.window.limited += span[1] - span[0]

    def _step_c(self, now: int) -> Iterator[Segment]:
        """RFC 6675, section 5, step C: while the window less the pipe takes a segment, what NextSeg chooses."""
        pipe = self.pipe()
        while self.window.has_room(pipe) and (found := self.window.next_seg(self.board, self.rwnd)) is not None:
            rule, span = found
            send = self._send_and_move_next_to_its_end if rule == "new" else self._send_and_start_timers_if_off
            yield send(now, span)
            self.window.note_segment_sent_by_rule(rule, span)
            pipe += span[1] - span[0]

    # ---- sending

    def _restart_if_idle_then_send_ready(self, now: int) -> Iterator[Segment]:
        """RFC 5681, section 3.1; RFC 9293, sections 3.7.4 and 3.8.6.2.1."""
        board = self.board
        if self.rules.restarts and not board.flight and now - self.sent_at > self.rto:
            self.window.restart()
        while (span := self._segment_at_next_by_window_and_nagle()) is not None:
            yield self._send_and_move_next_to_its_end(now, span)

    def _segment_at_next_by_window_and_nagle(self) -> Span | None:
        """The segment that ordinary sending may send."""
        board = self.board
        board.skip_sacked_octets_at_next()
        edge = board.una + min(self.window.cwnd, self.rwnd)
        if board.next < board.top:
            span = board.resent_segment_up_to_next_sacked(board.next)
            return span if span[1] <= edge else None
        queued, usable, smss = board.end - board.next, edge - board.next, self.rules.smss
        count = min(queued, usable, smss)
        if count <= 0 or (self.has_nagle and count < smss and board.flight):
            return None
        if count < smss and queued > usable and 2 * count < self.most_window:
            return None
        return board.next, board.next + count

    def _send_and_move_next_to_its_end(self, now: int, span: Span) -> Segment:
        """A segment leaves, after which sending goes on."""
        segment = self._send_and_start_timers_if_off(now, span)
        self.board.sent(span[1])
        return segment

    def _send_and_start_timers_if_off(self, now: int, span: Span) -> Segment:
        """A segment leaves (RFC 6298, sections 3 and 5.1)."""
        start, end = span
        if self.timed is not None and start < self.timed[1] and self.timed[0] < end:
            self.timed = None
        if self.timed is None and start >= self.board.top:
            self.timed = start, end, now
        self.sent_at = now
        if self.expiry is None:
            self.expiry = now + self.rto
        return Segment(now, start, end, end == self.board.end)

    def _mark_blocks_and_answer_if_any_new(self, blocks: Sequence[Span]) -> bool:
        """Marks blocks of octets that were sent; whether one tells new octets."""
        good = [it for it in blocks if self.rules.has_sack and it[0] < it[1] <= self.board.top]
        return any([self.board.mark(*it) for it in good])

    # ---- the timer (RFC 6298)

    def _sample_and_restart_timer_after_ack(self, now: int) -> None:
        """New octets are acknowledged (sections 3, 5.2 and 5.3)."""
        if self.timed is not None and self.timed[1] <= self.board.una:
            self._sample(now - self.timed[2])
            self.timed = None
        self.expiry = None if self.board.una == self.board.top else now + self.rto

    def _sample(self, took: int) -> None:
        """Sections 2.2 to 2.5."""
        if self.srtt is None:
            self.srtt, self.rttvar = took, took // 2
        else:
            self.rttvar = (3 * self.rttvar + abs(self.srtt - took)) // 4
            self.srtt = (7 * self.srtt + took) // 8
        self.rto = self._clamped_rto(self.srtt + max(self.rules.granularity, 4 * self.rttvar))

    def _clamped_rto(self, rto: int) -> int:
        return min(max(rto, self.rules.least_rto), self.rules.most_rto)
