"""Random transfers in which segments are lost, each as a script of inputs with what the sender does at each."""

import heapq
import random
from collections.abc import Iterator, Sequence
from dataclasses import dataclass, field
from itertools import count

from model.network import MILLISECOND, Ack, Network, Path, Peer
from model.rules import DUP_THRESH, MOST_WINDOW, RFC6675, RFC6928, RFC9937, SECOND, Rules
from model.sender import Segment, Sender, Start
from model.spans import Span

SYN_AT = 100_000
DEFAULT_MSS = 1_460
# A transfer has so many events at most.
EVENTS = 160
# And lasts so long at most.
HORIZON = 200 * SECOND
SHIFT = 7
SYN_WINDOW = 32_792
OWN_WINDOW = 65_535
SNDBUF = 262_144
OPENING = (
    "0 socket(..., SOCK_STREAM, IPPROTO_TCP) = 3",
    "+0 bind(3, ..., ...) = 0",
    "+0 listen(3, 1) = 0",
)
TICK = "fcntl(3, F_SETFL, O_RDWR) = 0"


@dataclass(frozen=True, slots=True)
class Expected:
    """An input, or a segment that is sent: its moment in microseconds, how a script has it, and the state after it."""

    at: int
    line: str
    state: str


@dataclass(frozen=True, slots=True)
class Transfer:
    """The settings and the inputs of a transfer, what is expected, and how many recoveries there are.

    Of these, how many an ACK of new octets began; and how many segments were lost that recovery sent again.
    """

    seed: int
    settings: str
    script: str
    expected: tuple[Expected, ...]
    recoveries: int
    acknowledging: int
    lost_again: int


@dataclass(frozen=True, slots=True)
class Write:
    """A call that writes so many octets."""

    octets: int


@dataclass(order=True, slots=True)
class Due:
    """A step that is due at a moment: a write, a segment that reaches the peer, its ACK, or the end of its wait."""

    at: int
    place: int
    what: "Write | Span | Ack | None" = field(compare=False)


def endless_transfers_from_seed(algorithm: str, first_seed: int) -> Iterator[Transfer]:
    """Transfers one after the other, by these seeds from the first on."""
    for seed in count(first_seed):
        yield _Game(random.Random(f"{algorithm} {seed}"), algorithm).play(seed)


class _Game:
    """A transfer that is drawn and played."""

    def __init__(self, dice: random.Random, algorithm: str) -> None:
        self._dice = dice
        self._rules = _rules(dice, algorithm)
        self._path = _path(dice)
        self._has_scale = dice.random() < 0.8
        self._peer = Peer(dice.choice((1, 1, 2, 2, 3, 4, 8)), self._windows(), self._rules.has_sack)
        self._network = Network(dice, self._path)
        self._due: list[Due] = []
        self._places = count()
        self._lines: list[str] = list(OPENING)
        self._input_at = 0
        self._expected: list[Expected] = []
        self._sent_to = 1
        self._lost_again = 0
        takes = self._path.round_trip
        least = max(SECOND, self._rules.least_rto)
        if dice.random() < 0.1:
            takes = least + dice.randrange(1, least)
        at = SYN_AT + takes
        self._start = Start(SYN_AT, at, takes >= least, SYN_WINDOW, self._peer.windows[0])
        self._sender = Sender(self._rules, self._start)

    def play(self, seed: int) -> Transfer:
        """Plays it to its end."""
        self._write_handshake_lines()
        for at, octets in self._writes():
            self._push_due_step(at, Write(octets))
        now = self._start.at
        while len(self._expected) < EVENTS and (due := self._next_moment()) < HORIZON:
            now = due
            self._expire_timer_or_do_due_step(now)
        self._expire_up_to_and_answer_if_any(now + 1)
        self._write_input_and_note_expected(now + 1, TICK, [])
        script = "".join(f"{it}\n" for it in self._lines)
        sender = self._sender
        expected = tuple(self._expected)
        return Transfer(
            seed,
            self._toml_of_settings_not_default(),
            script,
            expected,
            sender.recoveries,
            sender.acknowledging,
            self._lost_again,
        )

    def _write_handshake_lines(self) -> None:
        """The handshake, which is no part of what is compared."""
        options = [f"mss {self._rules.smss}", *(["sackOK"] if self._rules.has_sack else [])]
        options += [f"wscale {SHIFT}"] if self._has_scale else []
        self._append_line_with_time_gap(SYN_AT, f"< S 0:0(0) win {SYN_WINDOW} <{','.join(options)}>")
        self._append_line_with_time_gap(self._start.at, f"< . 1:1(0) ack 1 win {self._field(self._start.window)}")
        self._append_line_with_time_gap(self._start.at, "accept(3, ..., ...) = 4")

    def _toml_of_settings_not_default(self) -> str:
        """The settings as TOML has them, where they aren't the defaults."""
        rules = self._rules
        values: dict[str, tuple[object, object]] = {
            "abc_limit": (rules.limit, 1),
            "initial_ssthresh": (rules.first_ssthresh, MOST_WINDOW),
            "initial_window": (rules.window_rule, "rfc5681"),
            "limited_transmit": (rules.transmits_early, True),
            "min_rto_us": (rules.least_rto, SECOND),
            "mss": (max(rules.smss, DEFAULT_MSS), DEFAULT_MSS),
            "recovery_algorithm": (rules.algorithm, RFC6675),
            "slow_start_after_idle": (rules.restarts, False),
        }
        return "\n".join(
            f"{key} = {_toml_of_value(value)}" for key, (value, default) in values.items() if value != default
        )

    # ---- what is due

    def _push_due_step(self, at: int, what: Write | Span | Ack | None) -> None:
        heapq.heappush(self._due, Due(at, next(self._places), what))

    def _next_moment(self) -> int:
        moments = [it.at for it in self._due[:1]] + ([] if self._sender.expiry is None else [self._sender.expiry])
        return min(moments, default=HORIZON)

    def _expire_timer_or_do_due_step(self, now: int) -> None:
        """Lets the timer expire up to a moment or, where it doesn't, does the step that is due then."""
        if self._expire_up_to_and_answer_if_any(now):
            return
        what = heapq.heappop(self._due).what
        if isinstance(what, Write):
            taken = min(what.octets, SNDBUF - (self._sender.board.end - self._sender.board.una))
            if taken > 0:
                sent = self._sender.write(now, taken)
                self._write_input_and_note_expected(now, f"write(4, ..., {taken}) = {taken}", sent)
        elif isinstance(what, Ack):
            sent = self._sender.acknowledge(now, what.number, what.window, what.blocks)
            self._write_input_and_note_expected(now, self._ack_text(what), sent)
        elif what is None:
            if self._peer.waiting:
                self._send_ack_from_peer_unless_lost(now)
        elif self._peer.take(what):
            self._send_ack_from_peer_unless_lost(now)
        else:
            self._push_due_step(now + 40 * MILLISECOND, None)

    def _expire_up_to_and_answer_if_any(self, now: int) -> bool:
        """The expiries up to a moment; whether there was one."""
        has_expired = False
        while self._sender.expiry is not None and self._sender.expiry <= now:
            has_expired = True
            self._note_sent_and_schedule_arrivals(self._sender.expire(), state_of(self._sender))
        return has_expired

    def _send_ack_from_peer_unless_lost(self, now: int) -> None:
        ack = self._peer.acknowledge()
        if (at := self._network.back(now)) is not None:
            self._push_due_step(at, ack)

    # ---- what happens

    def _write_input_and_note_expected(self, now: int, line: str, sent: Sequence[Segment]) -> None:
        self._append_line_with_time_gap(now, line)
        state = state_of(self._sender)
        self._expected.append(Expected(now, line, state))
        self._note_sent_and_schedule_arrivals(sent, state)

    def _note_sent_and_schedule_arrivals(self, sent: Sequence[Segment], state: str) -> None:
        """Segments were sent, all by one input or expiry, which led to this state."""
        for it in sent:
            flags = "P." if it.has_push else "."
            line = f"> {flags} {it.start}:{it.end}({it.end - it.start}) ack 1 win {self._field(OWN_WINDOW)}"
            self._expected.append(Expected(it.at, line, state))
            if (at := self._network.arrival(it)) is not None:
                self._push_due_step(at, (it.start, it.end))
            elif it.start < self._sent_to and self._sender.window.is_recovering:
                self._lost_again += 1
            self._sent_to = max(self._sent_to, it.end)

    def _append_line_with_time_gap(self, now: int, line: str) -> None:
        gap = now - self._input_at
        self._lines.append(f"+{gap // SECOND}.{gap % SECOND:06} {line}")
        self._input_at = now

    def _ack_text(self, ack: Ack) -> str:
        blocks = " ".join(f"{start}:{end}" for start, end in ack.blocks)
        options = f" <sack {blocks}>" if blocks else ""
        return f"< . 1:1(0) ack {ack.number} win {self._field(ack.window)}{options}"

    def _field(self, window: int) -> int:
        return window >> SHIFT if self._has_scale else window

    # ---- what is drawn

    def _windows(self) -> tuple[int, ...]:
        """The peer's windows, one after the other, of which the last one stays; a field can say each."""
        most = 65_535 << SHIFT if self._has_scale else 65_535
        wide = min(most, 60 * self._rules.smss)
        if self._dice.random() < 0.7:
            return (self._window_rounded_down_to_scale(wide),)
        few = [self._dice.randrange(3, 40) * self._rules.smss for _ in range(self._dice.randrange(1, 6))]
        return tuple(self._window_rounded_down_to_scale(min(most, it)) for it in few)

    def _window_rounded_down_to_scale(self, window: int) -> int:
        return window >> SHIFT << SHIFT if self._has_scale else window

    def _writes(self) -> Iterator[tuple[int, int]]:
        """Writes: one at the establishment, and others later, some after an idle time."""
        at = self._start.at
        yield at, self._octets(6, 50)
        for _ in range(self._dice.choice((0, 0, 1, 2, 4))):
            trips = self._dice.choice((1, 3, 10, 30))
            at += self._dice.randrange(1, trips * self._path.round_trip) + self._dice.choice((0, 0, 1, 4, 20)) * SECOND
            yield at, self._octets(1, 30)

    def _octets(self, first: int, last: int) -> int:
        whole = self._dice.randrange(first, last) * self._rules.smss
        return min(whole + self._dice.choice((0, 0, 1, self._rules.smss // 2)), 200_000)


def _rules(dice: random.Random, algorithm: str) -> Rules:
    smss = dice.choice((64, 100, 100, 100, 536, 1_000, 1_000, 1_095, 1_096, 1_460, 2_190, 2_191))
    return Rules(
        smss,
        has_sack=dice.random() < (0.8 if algorithm == RFC6675 else 0.97),
        algorithm=algorithm,
        limit=dice.choice((1, 1, 2, 2, 3, 8, dice.randrange(1, 9))),
        restarts=dice.random() < 0.5,
        transmits_early=dice.random() < 0.8,
        window_rule=dice.choice(("rfc5681", RFC6928, RFC6928)),
        first_ssthresh=dice.choice((MOST_WINDOW, MOST_WINDOW, dice.randrange(128, 40 * smss))),
        least_rto=dice.choice((SECOND, SECOND, 200 * MILLISECOND, 1_000)),
    )


def _path(dice: random.Random) -> Path:
    trip = dice.choice((100, 100, 100, 10, 50, 20, 300, 600)) * MILLISECOND
    first = dice.randrange(2, 40)
    burst = range(first, first + dice.choice((0, 1, 1, 1, 2, 3, 6)))
    loss = dice.choice((0.0, 0.0, 0.02, 0.05, 0.1, 0.2))
    return Path(trip, loss, dice.choice((0.0, 0.0, 0.05, 0.3, 0.6)), dice.choice((0.0, 0.0, 0.05, 0.2)), burst)


def _toml_of_value(value: object) -> str:
    if isinstance(value, bool):
        return "true" if value else "false"
    return f'"{value}"' if isinstance(value, str) else str(value)


def _seconds(moment: int) -> str:
    return f"{moment // SECOND}.{moment % SECOND:06}"


def state_of(it: Sender) -> str:
    """The sender's state as a trace has it."""
    board, window = it.board, it.window
    facts: dict[str, object] = {"una": board.una, "next": board.next, "top": board.top, "end": board.end}
    facts |= {"cwnd": window.cwnd, "ssthresh": window.ssthresh, "rwnd": it.rwnd, "FlightSize": board.flight}
    if window.is_recovering and it.rules.has_sack:
        facts["pipe"] = it.pipe()
    if it.rules.algorithm == RFC9937:
        facts |= {"prr_delivered": window.prr_delivered, "prr_out": window.prr_out}
    facts["DupAcks"] = min(window.duplicates, DUP_THRESH + 1)
    facts["RTO"] = _seconds(it.rto)
    facts["expiry"] = "none" if it.expiry is None else _seconds(it.expiry)
    name = "RFC6675" if it.rules.has_sack else "RFC5681"
    facts["recovery"] = name if window.is_recovering else "none"
    return " ".join(["ESTABLISHED", *(f"{key}:{value}" for key, value in facts.items())])
