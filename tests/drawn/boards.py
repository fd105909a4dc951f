"""Random lists of calls on a scoreboard and on congestion control, answered by the second reading, for test_sender."""

from collections import Counter
from collections.abc import Iterator
from dataclasses import dataclass
from itertools import repeat

from drawn.drawing import Amount, SeededDice
from model.board import Board
from model.rules import RFC6675, RFC9937, Rules
from model.spans import Span, size
from model.window import Ack, Known, Window

# How many segments recovery and limited transmit send at most after an ACK.
SEGMENTS = 20

# The names of counts by the words of rows: what ACKs lead to, the rules of NextSeg and PRR, restarts, and the timer.
NAMES = {
    "ordinary": "ordinary sending",
    "nothing": "nothing",
    "segment": "limited transmit without SACK",
    "again": "fast retransmit",
    "expire": "expiry",
    "restart": "restart",
    "limited": "limited transmit",
    "entry": "entry",
    "new": "rule 2",
    "step-c": "step C",
    "lost": "rule 1",
    "rescue": "rule 4",
    "hole": "rule 3",
    "proportion": "PRR above ssthresh",
    "limit": "PRR up to ssthresh",
    "safe": "PRR up to ssthresh with SafeACK",
    "forced": "PRR with a forced segment",
    "silent": "PRR with nothing delivered",
}

# The algorithms of recovery with SACK.
ALGORITHMS = (RFC6675, RFC9937)


@dataclass(frozen=True)
class Mix:
    """How many calls a list has, and what is drawn for them."""

    calls: int
    acks: int  # once in so many ACKs new octets are acknowledged
    expiries: int  # once in so many chances the timer expires
    block: int  # how many octets a block has at most
    written: int  # once so many octets are queued no more are


SHORT = Mix(calls=30, acks=3, expiries=4, block=150, written=1_000_000)

# Lists in which runs of SACKed octets gather.
LONG = Mix(calls=250, acks=200, expiries=100, block=6, written=2_000)


def written_answer(answer: int | Span | None) -> str:
    """An answer as it is written: a segment by its edges, and `-` for none."""
    if answer is None:
        return "-"
    return f"{answer[0]} {answer[1]}" if isinstance(answer, tuple) else str(int(answer))


def written_answers(*answers: int | Span | None) -> str:
    """Answers as they are written."""
    return " ".join(written_answer(answer) for answer in answers)


class BoardCalls:
    """A scoreboard with congestion control, on which random calls are made; each gives the rows of what it does."""

    def __init__(self, mix: Mix, dice: SeededDice, counts: Counter[str]) -> None:
        self.mix = mix
        self.dice = dice
        self.counts = counts
        self.board = Board(smss=self.between(64, 100), una=0)
        ssthresh = self.between(128, 1_000)
        self.is_resent = self.is_once_in(8)
        has_sack = not self.is_once_in(3)
        limit = self.between(1, 8)
        algorithm = ALGORITHMS[self.dice.below(len(ALGORITHMS))]
        rules = Rules(self.board.smss, has_sack, algorithm, limit)
        self.window = Window(rules, rules.smss if self.is_resent else rules.initial_window, ssthresh)

    def between(self, first: int, last: int) -> int:
        """A number from the first one to the last one."""
        return first + self.dice.below(last - first + 1)

    def is_once_in(self, draws: int) -> bool:
        """Once in so many draws."""
        return self.dice.below(draws) == 0

    def rows(self) -> Iterator[str]:
        """The whole list: how it begins, and the calls, each with what is answered after it."""
        window = self.window
        rules = window.rules
        yield f"list {written_answers(rules.smss, window.ssthresh, self.is_resent, rules.limit)} {rules.algorithm}"
        for _ in range(self.mix.calls):
            yield from self.call()
            yield self.answers()

    def call(self) -> Iterator[str]:
        """A random call."""
        kind = self.dice.below(12)
        if kind < 2:
            yield from self.write()
        elif kind < 5:
            yield from self.send()
        elif kind == 5 and self.is_once_in(self.mix.expiries):
            yield from self.expire()
        elif kind == 6:
            self.board.skip_sacked_octets_at_next()
            yield "skip"
        elif kind == 7:
            yield self.start_sending_perhaps_after_idle()
        else:
            yield from self.acknowledge()

    def start_sending_perhaps_after_idle(self) -> str:
        """Sending begins, after an idle time or without one."""
        is_idle = self.is_once_in(2)
        if is_idle:
            self.window.restart()
            self.counts["restart"] += 1
        return f"restart {written_answers(is_idle)}"

    def write(self) -> Iterator[str]:
        """Queues octets."""
        count = self.between(1, 400)
        if self.board.end < self.mix.written:
            self.board.end += count
            yield f"write {count}"

    def sent(self, end: int) -> str:
        """A segment is sent."""
        self.board.sent(end)
        return f"sent {end}"

    def send(self) -> Iterator[str]:
        """Sends new octets, up to three segments."""
        for _ in range(self.between(1, 3)):
            yield self.sent(min(self.board.top + self.board.smss, self.board.end))

    def expire(self) -> Iterator[str]:
        """The timer expires."""
        self.window.expire(self.board)
        segment = self.board.resent_segment_up_to_next_sacked(self.board.una)
        self.counts["expire"] += 1
        yield f"expire {written_answers(segment)}"
        yield self.sent(segment[1])

    def acknowledge(self) -> Iterator[str]:
        """An ACK arrives with up to three blocks, and what it leads to is sent."""
        board, window = self.board, self.window
        acked = self.dice.below(board.flight + 1) if self.is_once_in(self.mix.acks) else 0
        known = Known.of(board)
        board.acknowledge(board.una + acked)
        yield f"ack {board.una}"
        has_new_sack = False
        for _ in range(self.dice.below(4) if window.rules.has_sack else 0):
            end = self.between(0, board.top)
            start = max(end - self.between(0, self.mix.block), 0)
            is_new = board.mark(start, end)
            has_new_sack |= is_new
            yield f"mark {written_answers(start, end, is_new)}"
        ack = Ack.on(board, known, self.between(100, 2_000), not self.is_once_in(4), has_new_sack)
        was_recovering = window.is_recovering
        then, segment = window.take(board, ack)
        is_silent = then == "nothing" and window.rules.has_sack and was_recovering
        self.counts["silent" if is_silent else then] += 1
        news = ack.has_new_sack if window.rules.has_sack else None
        yield f"hear {written_answers(acked, ack.rwnd, ack.is_same_window, news)} {then} {written_answers(segment)}"
        yield from self.send_what_ack_leads_to(then, segment, ack.rwnd)

    def send_what_ack_leads_to(self, then: str, segment: Span | None, rwnd: int) -> Iterator[str]:
        """Sends what an ACK leads to."""
        if then == "segment" and segment:
            yield self.sent(segment[1])
        elif then == "limited":
            yield from self.transmit_limited(rwnd)
        elif then == "entry":
            yield self.set_cwnd_by_prr_if_chosen()
            yield f"enter {written_answers(self.window.take_first_segment_of_recovery(self.board))}"
            yield from self.send_by_next_seg_while_pipe_has_room(rwnd)
        elif then == "step-c":
            yield self.set_cwnd_by_prr_if_chosen()
            yield from self.send_by_next_seg_while_pipe_has_room(rwnd)

    def set_cwnd_by_prr_if_chosen(self) -> str:
        """By PRR the window is set, before anything is sent."""
        window = self.window
        pipe = self.board.pipe(window.high_rxt)
        if rule := window.pace(pipe):
            self.counts[rule] += 1
        return f"pace {written_answers(pipe, window.cwnd, window.prr_delivered, window.prr_out)}"

    def send_by_next_seg_while_pipe_has_room(self, rwnd: int) -> Iterator[str]:
        """Step C."""
        pipe = self.board.pipe(self.window.high_rxt)
        yield f"pipe {pipe}"
        for _ in range(SEGMENTS):
            found = self.window.next_seg(self.board, rwnd) if self.window.has_room(pipe) else None
            if not found:
                yield f"next {written_answers(rwnd, pipe)} -"
                return
            rule, segment = found
            self.counts[rule] += 1
            yield f"next {written_answers(rwnd, pipe)} {rule} {written_answers(segment)}"
            if rule == "new":
                yield self.sent(segment[1])
            self.window.note_segment_sent_by_rule(rule, segment)
            pipe += size([segment])

    def transmit_limited(self, rwnd: int) -> Iterator[str]:
        """Limited transmit with SACK."""
        pipe = self.board.pipe(self.window.high_rxt)
        yield f"pipe {pipe}"
        for _ in range(SEGMENTS):
            segment = self.board.new_segment_if_whole_in_rwnd(rwnd) if self.window.has_room(pipe) else None
            yield f"limited {written_answers(rwnd, pipe, segment)}"
            if not segment:
                return
            yield self.sent(segment[1])
            self.window.limited += size([segment])
            pipe += size([segment])

    def answers(self) -> str:
        """The row of answers after a call, also on a random octet and on octets sent again up to a random one."""
        board, window = self.board, self.window
        octet, high_rxt = self.between(board.una, board.top), self.between(board.una, board.top)
        numbers = written_answers(board.una, board.next, board.top, board.end, window.cwnd, window.is_recovering)
        about = written_answers(octet, octet < board.lost_below(), board.resent_segment_up_to_next_sacked(octet)[1])
        behind = written_answers(
            high_rxt, board.pipe(high_rxt), board.first_lost_hole_start(high_rxt), board.first_hole_start(high_rxt)
        )
        last = board.lost()[-1][1] if board.lost() else 0
        return f"all {numbers} {self.runs()} {about} {behind} {written_answers(board.rescue(), last)}"

    def runs(self) -> str:
        """How many octets are free and SACKed in turns, from `una` on, up to the last SACKed one."""
        runs = self.board.sacked
        self.counts["runs"] = max(self.counts["runs"], len(runs))
        places = [self.board.una, *(place for run in runs for place in run)]
        return " ".join([*(str(end - start) for start, end in zip(places, places[1:])), "."])


def rows(mix: Mix, seed: int, amount: Amount) -> Iterator[str]:
    """All rows: lists of calls, the title that ends them, and what they came to."""
    dice = SeededDice(seed)
    counts: Counter[str] = Counter()
    for each in amount.take_lists_until_enough(list(BoardCalls(mix, dice, counts).rows()) for _ in repeat(None)):
        yield from each
    yield f"== lists of {mix.calls} calls"
    yield from (f"# {name} {counts[word]}" for word, name in NAMES.items() if counts[word])
    yield f"# most runs of SACKed octets at once {counts['runs']}"
