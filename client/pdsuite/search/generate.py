"""Makes scenarios by a random generator: the same ones for the same seed."""

from collections.abc import Iterable, Iterator, Sequence
from random import Random
from typing import TypeVar

from pdsuite.packetdrill.items import SECOND, TcpOption
from pdsuite.scripts.settings import Settings, Value, sorted_settings
from pdsuite.search.inputs import make_unrecorded_call
from pdsuite.search.scenario import Emphasis, Ending, Handshake, IrregularPacket, Irregularity, Network, PlannedCall
from pdsuite.search.scenario import ReceiverPlan, Scenario, Theme

T = TypeVar("T")

# Seeds of different searches are so far apart.
_APART = 1_000_003
_MILLISECOND = 1_000
_SEGMENTS = (64, 536, 1_000, 1_095, 1_096, 1_460, 2_190, 2_191, 3_000, 8_960)
_ROUND_TRIPS = tuple(it * _MILLISECOND for it in (100, 100, 100, 10, 50, 200, 300, 400, 1_500, 30_000))
_WIDE = (65_535, 65_535, 32_896, 32_896, 1_000_000)
_NARROW = (20_000, 10_000, 5_000, 4_000, 3_000, 2_500, 2_000, 1_500, 1_000, 500, 100, 1, 0)
# About a segment, and half of one.
_SMALL = (0, 200, 300, 400, 600, 900, 1_200, 1_500, 2_000, 3_000, 4_000)
_LONG = (20_000, 20_000, 12_000, 10_000, 8_000, 30_000)
_SHORT = (1_000, 2_000, 3_000, 4_000, 5_000, 1, 100, 500, 1_500, 2_500, 0)
_OUTAGES = (500_000, 2 * SECOND, 10 * SECOND, 70 * SECOND, 200 * SECOND)
_LONG_HANDSHAKES = (1_200_000, 3_500_000, 8 * SECOND)
_IDLE = (2 * SECOND, 5 * SECOND, 70 * SECOND)
_RESTART = "slow_start_after_idle"
# So many recordings more are made where an idle time comes at the end.
_MORE_ROUNDS = 10
# So long before and after an RTO.
_AROUND = (-400_000, -1, 0, 1, 1, 1_000, 500_000, 2 * SECOND, 10 * SECOND)
# The settings that inputs may have, each with one of these values.
KEYS: dict[str, tuple[Value, ...]] = {
    "abc_limit": (2, 3, 8),
    "granularity_us": (1, 100_000, 1_000_000),
    "initial_ssthresh": (128, 2_000, 3_000, 4_000, 5_000, 8_000),
    "initial_window": ("rfc6928",),
    "limited_transmit": (False,),
    "max_rto_us": (100_000_000, 3_600_000_000),
    "min_rto_us": (1_000, 200_000, 3_000_000),
    "mss": _SEGMENTS,
    "nagle": (False,),
    "rcv_wnd": (1, 1_000, 100_000, 1_000_000),
    "recovery_algorithm": ("rfc9937",),
    _RESTART: (True,),
    "sack": (False,),
    "sndbuf": (1_024, 2_000, 4_000, 8_000),
    "wscale": (0, 1, 3, 14),
}
_IN_HANDSHAKES = (
    Irregularity.OLD_ACK, Irregularity.EARLY_ACK, Irregularity.BARE, Irregularity.RESET_NEAR,
    Irregularity.BELOW, Irregularity.OUTSIDE, Irregularity.RESET,
)  # fmt: skip
_LATER = tuple(it for it in Irregularity if it not in (Irregularity.FIN, Irregularity.RESET))
_NUMBERS = (0, 1, 2, 3, 100, 1_000, 2_500)


def scenario_lists_of_sizes(
    seed: int, sizes: Iterable[int], emphasis: Emphasis = Emphasis()
) -> Iterator[list[Scenario]]:
    """Lists of so many scenarios each, one after the other."""
    for number, size in enumerate(sizes):
        yield numbered_scenario_list_of_seed_and_size(seed, number, size, emphasis)


def numbered_scenario_list_of_seed_and_size(seed: int, number: int, size: int, emphasis: Emphasis) -> list[Scenario]:
    """So many scenarios, the list of this number by a seed."""
    maker = _Generator(Random(seed * _APART + number), emphasis)
    return [maker.draw_scenario() for _ in range(size)]


class _Generator:
    """Makes scenarios of what a random generator draws."""

    def __init__(self, random: Random, emphasis: Emphasis) -> None:
        self._random = random
        self._keys = tuple(it for it in KEYS if it not in emphasis.fixed)
        self._first = tuple(it for it in self._keys if it in emphasis.keys)
        self._themes = emphasis.themes

    def draw_scenario(self) -> Scenario:
        chosen = self._draw_settings()
        network = self._draw_network()
        closed = (
            self._draw_moment_after_handshake(network.round_trip)
            if self._happens_more_with_theme(Theme.CLOSE, 2)
            else None
        )
        idle = self._draw_idle_writes(chosen)
        return Scenario(
            chosen,
            self._draw_handshake_begun_by_peer(network.round_trip),
            network,
            self._draw_receiver_plan(),
            self._draw_calls(network.round_trip, chosen, closed),
            self._draw_irregular_packets(network.round_trip, closed),
            self._pick((Ending.WAIT, Ending.WRITE, Ending.WRITE, Ending.NONE)),
            self._draw_between(4, 14) + (_MORE_ROUNDS if idle else 0),
            idle,
        )

    def _draw_below(self, below: int) -> int:
        return self._random.randrange(below)

    def _draw_between(self, first: int, last: int) -> int:
        return first + self._draw_below(last - first + 1)

    def _happens_one_in(self, number: int) -> bool:
        return self._draw_below(number) == number - 1

    def _happens_more_with_theme(self, theme: Theme, number: int) -> bool:
        """Whether one of so many has something, or where the theme comes first two of three."""
        return not self._happens_one_in(3) if theme in self._themes else self._happens_one_in(number)

    def _pick(self, values: Sequence[T]) -> T:
        return values[self._draw_below(len(values))]

    def _draw_nonempty_number_set_up_to_size(self, most: int, below: int) -> frozenset[int]:
        """Some different numbers, so many at most."""
        return frozenset(self._draw_below(below) for _ in range(self._draw_between(1, most)))

    def _draw_settings(self) -> Settings:
        if not self._keys or self._happens_one_in(8 if self._first else 2):
            return ()
        if self._first and not self._happens_one_in(4):
            first = {key for key in self._first if not self._happens_one_in(3)} or {self._pick(self._first)}
            more = {self._pick(self._keys) for _ in range(self._pick((0, 0, 1)))}
            return sorted_settings({key: self._pick(KEYS[key]) for key in sorted(first | more)})
        keys = {self._pick(self._keys) for _ in range(self._pick((1, 1, 2, 3)))}
        return sorted_settings({key: self._pick(KEYS[key]) for key in sorted(keys)})

    def _draw_handshake_begun_by_peer(self, round_trip: int) -> Handshake:
        takes = self._pick(_LONG_HANDSHAKES) if self._happens_more_with_theme(Theme.HANDSHAKE, 8) else round_trip
        is_irregular = self._happens_more_with_theme(Theme.HANDSHAKE, 8)
        irregular = (
            (IrregularPacket(takes // 2, self._pick(_IN_HANDSHAKES), self._draw_below(200)),) if is_irregular else ()
        )
        window = self._pick(_SMALL if Theme.WINDOW in self._themes else (32_792, 32_792, 1_000, 2_000, 65_535, 0))
        return Handshake(
            self._draw_syn_options(), window, takes, irregular, self._happens_one_in(16), self._happens_one_in(16)
        )

    def _draw_syn_options(self) -> tuple[TcpOption, ...]:
        options = []
        if not self._happens_one_in(8):
            options.append(TcpOption("mss", (1_000 if self._happens_one_in(2) else self._pick(_SEGMENTS),)))
        if self._happens_one_in(16):
            options.append(TcpOption("eol"))
        if not self._happens_more_with_theme(Theme.NO_SACK, 3):
            options.append(TcpOption("sackOK"))
        if not self._happens_one_in(4):
            options.append(TcpOption("wscale", (self._pick((7, 7, 7, 0, 1, 2, 10, 14, 15, 16)),)))
        return tuple(options)

    def _draw_network(self) -> Network:
        round_trip = self._pick(_ROUND_TRIPS)
        more = tuple(self._pick((0, 0, 1, 2, 4)) * round_trip // 4 for _ in range(self._draw_between(1, 3)))
        late: dict[int, int] = {}
        if self._happens_one_in(3):
            step = max(round_trip // 20, 1)
            late = {self._draw_below(12): self._draw_between(1, 60) * step for _ in range(self._draw_between(1, 3))}
        lost_acks = self._draw_nonempty_number_set_up_to_size(3, 10) if self._happens_one_in(4) else frozenset()
        outage = (0, 0)
        if self._happens_more_with_theme(Theme.EXPIRY, 6):
            begin = self._draw_below(7) * round_trip
            outage = (begin, begin + self._pick(_OUTAGES))
        return Network(round_trip, more, self._draw_lost_packets(), late, lost_acks, outage)

    def _draw_lost_packets(self) -> frozenset[int]:
        kind = self._draw_between(1, 5) if Theme.LOSS in self._themes else self._draw_below(6)
        if kind == 0:
            return frozenset()
        first = self._draw_below(8)
        if kind < 3:
            return frozenset((first,))
        if kind == 3:
            return frozenset(range(first, first + self._draw_between(2, 4)))
        return self._draw_nonempty_number_set_up_to_size(5, 16)

    def _draw_receiver_plan(self) -> ReceiverPlan:
        windows = {0: self._draw_window()}
        if self._happens_more_with_theme(Theme.WINDOW, 3):
            windows |= {self._draw_between(1, 8): self._draw_window() for _ in range(self._draw_between(1, 3))}
        each = self._pick((1, 1, 1, 2, 3, 8))
        delay = self._pick((40, 200)) * _MILLISECOND
        return ReceiverPlan(
            each, delay, not self._happens_one_in(16), not self._happens_one_in(5), tuple(sorted(windows.items()))
        )

    def _draw_window(self) -> int:
        if Theme.WINDOW in self._themes and self._happens_one_in(2):
            return self._pick(_SMALL)
        return self._pick(_NARROW) if self._happens_more_with_theme(Theme.WINDOW, 4) else self._pick(_WIDE)

    def _draw_calls(self, round_trip: int, chosen: Settings, closed: int | None) -> tuple[PlannedCall, ...]:
        sizes = [*_SHORT, *_LONG, *(int(str(value)) - 1 for key, value in chosen if key == "sndbuf")]
        first = self._pick(sizes) if self._happens_more_with_theme(Theme.SMALL, 3) else self._pick(_LONG)
        acts = [PlannedCall(0, make_unrecorded_call("write", 4, "...", first))]
        for _ in range(self._draw_below(5)):
            acts.append(
                PlannedCall(
                    self._draw_moment_after_handshake(round_trip),
                    make_unrecorded_call("write", 4, "...", self._pick(sizes)),
                )
            )
        if _RESTART in dict(chosen):
            acts.append(
                PlannedCall(
                    self._draw_moment_after_handshake(round_trip) + self._pick(_IDLE),
                    make_unrecorded_call("write", 4, "...", self._pick(_LONG)),
                )
            )
        if self._happens_one_in(6):
            option = (4, "SOL_TCP", "TCP_NODELAY", f"[{self._draw_below(2)}]", 4)
            acts.append(
                PlannedCall(
                    0 if self._happens_one_in(2) else self._draw_moment_after_handshake(round_trip),
                    make_unrecorded_call("setsockopt", *option),
                )
            )
        if closed is not None:
            acts.append(PlannedCall(closed, make_unrecorded_call("close", 4)))
            if self._happens_one_in(8):
                acts.append(PlannedCall(closed, make_unrecorded_call("write", 4, "...", 100)))
        return tuple(sorted(acts, key=_planned_delay_of_call_or_packet))

    def _draw_idle_writes(self, chosen: Settings) -> tuple[PlannedCall, ...]:
        """The writes after idle times."""
        if _RESTART not in dict(chosen) and not self._happens_more_with_theme(Theme.IDLE, 8):
            return ()
        count = self._draw_between(1, 2)
        return tuple(
            PlannedCall(self._pick(_AROUND), make_unrecorded_call("write", 4, "...", self._pick(_LONG)))
            for _ in range(count)
        )

    def _draw_irregular_packets(self, round_trip: int, closed: int | None) -> tuple[IrregularPacket, ...]:
        irregular = []
        if self._happens_one_in(3):
            is_near = closed is not None and not self._happens_one_in(3)
            irregular.append(
                IrregularPacket(
                    (closed or 0) + round_trip // 4 if is_near else self._draw_moment_after_handshake(round_trip),
                    Irregularity.FIN,
                )
            )
        if self._happens_one_in(3 if Theme.CLOSE in self._themes else 10):
            irregular.append(
                IrregularPacket(self._draw_moment_after_handshake(round_trip), Irregularity.RESET, self._draw_below(2))
            )
        if self._happens_more_with_theme(Theme.IRREGULAR, 3):
            for _ in range(self._draw_between(1, 4)):
                irregular.append(
                    IrregularPacket(
                        self._draw_moment_after_handshake(round_trip), self._pick(_LATER), self._pick(_NUMBERS)
                    )
                )
        return tuple(sorted(irregular, key=_planned_delay_of_call_or_packet))

    def _draw_moment_after_handshake(self, round_trip: int) -> int:
        """A moment after the handshake: some round trips, in quarters and a little more."""
        return self._draw_below(25) * round_trip // 4 + self._pick((0, 1, 1_000))


def _planned_delay_of_call_or_packet(it: PlannedCall | IrregularPacket) -> int:
    return it.after
