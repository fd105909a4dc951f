"""Congestion control and loss recovery (RFC 5681, 3465, 3042, 6675, 9937), and which sending follows an ACK."""

from dataclasses import dataclass

from model.board import Board
from model.rules import DUP_THRESH, MOST_WINDOW, RFC9937, Rules
from model.spans import Span, Spans, size, within


@dataclass(frozen=True, slots=True)
class Known:
    """A board before an ACK: `una`, how many octets were SACKed and how many weren't, and those that were lost."""

    una: int
    sacked: int
    free: int
    lost: Spans

    @classmethod
    def of(cls, board: Board) -> "Known":
        return cls(board.una, size(board.sacked), size(board.free()), board.lost())


@dataclass(frozen=True, slots=True)
class Ack:
    """An ACK and its effect on the board; `rwnd` and all counts are in octets."""

    acked: int  # how many octets are newly acknowledged
    delivered: int  # DeliveredData (RFC 9937, section 6)
    recover_fs: int  # RecoverFS, if it begins a recovery
    is_safe: bool  # SafeACK
    rwnd: int
    is_same_window: bool
    has_new_sack: bool  # whether a block SACKed a new octet

    @classmethod
    def on(cls, board: Board, known: Known, rwnd: int, is_same_window: bool, has_new_sack: bool) -> "Ack":
        """That of the numbers and blocks that a board took since this was known."""
        acked, lost = board.una - known.una, board.lost()
        was_lost = sum(size(within(known.lost, *it)) for it in lost)
        delivered = acked + size(board.sacked) - known.sacked
        return cls(
            acked, delivered, known.free, acked > 0 and was_lost == size(lost), rwnd, is_same_window, has_new_sack
        )


@dataclass(slots=True)
class Window:
    """The window with what is counted for it. `take` says what an ACK leads to, which the sender then sends."""

    rules: Rules
    cwnd: int
    ssthresh: int
    duplicates: int = 0
    limited: int = 0  # what limited transmit sent since the duplicates are counted
    is_recovering: bool = False
    recovery_point: int = 0
    high_rxt: int = 0
    rescue_rxt: int = 0
    has_expired: bool = False  # since new octets were acknowledged last
    follows_expiry: bool = False  # whether the last slow start began at an expiry
    prr_delivered: int = 0
    prr_out: int = 0
    recover_fs: int = 1
    delivered: int = 0  # what the last ACK of a recovery delivered
    is_safe: bool = False

    @property
    def is_proportional(self) -> bool:
        """Whether recovery with SACK goes by PRR."""
        return self.rules.algorithm == RFC9937

    # ---- the window

    def expire(self, board: Board) -> None:
        """The timer has expired (RFC 5681, section 3.1; RFC 6675, section 5.1)."""
        if not self.has_expired:
            self.ssthresh = max(board.flight // 2, 2 * board.smss)
        self.cwnd = board.smss
        self.has_expired = self.follows_expiry = True
        self.is_recovering = False
        self.recovery_point = board.top
        self.duplicates = self.limited = self.prr_delivered = self.prr_out = 0
        board.sacked = []

    def restart(self) -> None:
        """Sending begins after an idle time (RFC 5681, section 4.1)."""
        self.cwnd = min(self.rules.initial_window, self.cwnd)
        self.follows_expiry = False

    def grow(self, acked: int) -> None:
        """New octets widen the window (RFC 5681, section 3.1, and in slow start RFC 3465, sections 2.2 and 2.3)."""
        smss = self.rules.smss
        if self.cwnd < self.ssthresh:
            self.cwnd += min(acked, (1 if self.follows_expiry else self.rules.limit) * smss)
        else:
            self.cwnd += max(smss * smss // self.cwnd, 1)
        self.cwnd = min(self.cwnd, MOST_WINDOW)

    def half_of_flight_less_limited(self, board: Board) -> int:
        """Half of FlightSize, without what limited transmit sent (RFC 5681, sections 3.1 and 3.2)."""
        return max((board.flight - self.limited) // 2, 2 * board.smss)

    def has_room(self, pipe: int) -> bool:
        """Whether a full segment may be on the way too."""
        return self.cwnd - pipe >= self.rules.smss

    # ---- what an ACK leads to

    def take(self, board: Board, ack: Ack) -> tuple[str, Span | None]:
        """Takes an ACK after the board; gives the kind of sending that follows, and its segment where it has one.

        `ordinary` is ordinary sending, `nothing` none. `limited` is limited transmit, `segment` that without SACK;
        `again` is fast retransmit, `entry` the first segment of a recovery with SACK, and `step-c` its step C.
        """
        if ack.acked:
            self.duplicates = self.limited = 0
            self.has_expired = False
        if not self.rules.has_sack:
            return self._take_ack_without_sack(board, ack)
        if self.is_recovering:
            return self._take_ack_in_sack_recovery(board, ack), None
        if ack.acked:
            self.grow(ack.acked)
        return (self._take_duplicate_with_sack(board, ack) if ack.has_new_sack else "ordinary"), None

    def _take_ack_in_sack_recovery(self, board: Board, ack: Ack) -> str:
        """RFC 6675, section 5, steps A to C."""
        if board.una >= self.recovery_point:
            self.is_recovering = False
            if self.is_proportional:
                self.cwnd = self.ssthresh
            self.prr_delivered = self.prr_out = 0
            return "ordinary"
        if self.is_proportional and not ack.delivered:
            return "nothing"
        self._note_ack(ack)
        return "step-c"

    def _take_duplicate_with_sack(self, board: Board, ack: Ack) -> str:
        """Takes a duplicate with SACK; gives the kind of sending that follows (RFC 6675, section 5, steps 1 to 4)."""
        self.duplicates += 1
        if board.una < self.recovery_point:
            return "ordinary"
        if self.duplicates < DUP_THRESH and board.una >= board.lost_below():
            if not self.rules.transmits_early:
                return "ordinary"
            self.high_rxt = board.una
            return "limited"
        self.cwnd = self.ssthresh = self.half_of_flight_less_limited(board)
        self.is_recovering = True
        self.recovery_point = board.top
        self.high_rxt = board.una
        self.prr_delivered = self.prr_out = 0
        self.recover_fs = max(ack.recover_fs, 1)
        self._note_ack(ack)
        return "entry"

    def _take_ack_without_sack(self, board: Board, ack: Ack) -> tuple[str, Span | None]:
        """RFC 5681, section 3.2."""
        if ack.acked and self.is_recovering:
            self.cwnd = self.ssthresh
            self.is_recovering = False
        elif ack.acked:
            self.grow(ack.acked)
        elif ack.is_same_window and board.flight and board.una >= self.recovery_point:
            self.duplicates += 1
            return self._take_duplicate_without_sack(board, ack.rwnd)
        return "ordinary", None

    def _take_duplicate_without_sack(self, board: Board, rwnd: int) -> tuple[str, Span | None]:
        """A duplicate without SACK (RFC 5681, section 3.2; RFC 3042)."""
        if self.duplicates < DUP_THRESH:
            segment = board.new_segment_if_whole_in_rwnd(rwnd) if self.rules.transmits_early else None
            if segment is None or segment[1] - board.una > self.cwnd + 2 * board.smss:
                return "nothing", None
            self.limited += segment[1] - segment[0]
            return "segment", segment
        if self.duplicates == DUP_THRESH:
            self.ssthresh = self.half_of_flight_less_limited(board)
            self.cwnd = self.ssthresh + 3 * board.smss
            self.is_recovering = True
            return "again", board.resent_segment_up_to_next_sacked(board.una)
        self.cwnd = min(self.cwnd + board.smss, MOST_WINDOW)
        return "ordinary", None

    # ---- sending in a recovery with SACK

    def take_first_segment_of_recovery(self, board: Board) -> Span:
        """The first segment of a recovery (RFC 6675, section 5, steps 4.2 and 4.3), which is sent."""
        segment = board.resent_segment_up_to_next_sacked(board.una)
        self.high_rxt = self.rescue_rxt = segment[1]
        self._note_out(segment)
        return segment

    def next_seg(self, board: Board, rwnd: int) -> tuple[str, Span] | None:
        """NextSeg (RFC 6675, section 4): the rule that chooses, and its segment."""
        lost, hole = board.first_lost_hole_start(self.high_rxt), board.first_hole_start(self.high_rxt)
        if lost is not None:
            return "lost", board.resent_segment_up_to_next_sacked(lost)
        if (new := board.new_segment_if_whole_in_rwnd(rwnd)) is not None:
            return "new", new
        if hole is not None:
            return "hole", board.resent_segment_up_to_next_sacked(hole)
        if board.una > self.rescue_rxt and (rescue := board.rescue()) is not None:
            return "rescue", rescue
        return None

    def note_segment_sent_by_rule(self, rule: str, segment: Span) -> None:
        """A segment of NextSeg is sent."""
        if rule in ("lost", "hole"):
            self.high_rxt = segment[1]
        elif rule == "rescue":
            self.rescue_rxt = self.recovery_point
        self._note_out(segment)

    # ---- PRR (RFC 9937, section 6)

    def _note_ack(self, ack: Ack) -> None:
        """`prr_delivered += DeliveredData`"""
        if self.is_proportional:
            self.prr_delivered += ack.delivered
            self.delivered, self.is_safe = ack.delivered, ack.is_safe

    def _note_out(self, segment: Span) -> None:
        """`prr_out += (data sent)`"""
        if self.is_proportional:
            self.prr_out += segment[1] - segment[0]

    def pace(self, pipe: int) -> str | None:
        """`cwnd = pipe + sndcnt`, before anything is sent of what an ACK in recovery leads to; which rule gave it."""
        if not self.is_proportional:
            return None
        if pipe > self.ssthresh:
            rule = "proportion"
            sndcnt = max(-(-self.prr_delivered * self.ssthresh // self.recover_fs) - self.prr_out, 0)
        else:
            rule = "safe" if self.is_safe else "limit"
            sndcnt = max(self.prr_delivered - self.prr_out, self.delivered) + self.is_safe * self.rules.smss
            sndcnt = min(self.ssthresh - pipe, sndcnt)
        if self.prr_out == sndcnt == 0:
            rule, sndcnt = "forced", self.rules.smss
        self.cwnd = min(pipe + sndcnt, MOST_WINDOW)
        return rule
