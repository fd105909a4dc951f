"""Varies inputs: their settings, a packet or a call in them, its moment, and how they go on."""

from collections.abc import Mapping, Sequence
from dataclasses import dataclass, replace
from random import Random
from typing import TypeVar

from pdsuite.compare.divergence import parse_played_events
from pdsuite.packetdrill.items import SECOND, Call, Packet, TcpOption
from pdsuite.scripts.settings import Settings, sorted_settings
from pdsuite.search.generate import KEYS
from pdsuite.search.inputs import Input, Inputs, make_dataless_inbound_packet, make_unrecorded_call, options_text
from pdsuite.search.scenario import Emphasis, Theme
from pdsuite.search.states import TracedState, states_before_inputs_and_at_end

T = TypeVar("T")

_WRITE = "write"
_SIZES = (0, 1, 100, 500, 999, 1_000, 1_500, 2_000, 2_500, 4_000, 5_000, 8_000, 10_000, 20_000)
_WINDOWS = (0, 1, 4, 8, 16, 40, 257, 500, 600, 1_000, 1_500, 2_000, 4_000, 32_792, 65_535)
_GAPS = (0, 1, 1_000, 10_000, 100_000, 200_000, 500_000, SECOND, 3 * SECOND, 70 * SECOND)
_OFFSETS = (0, 1, 500, 1_000, 1_001, 2_000, 3_000, 4_000)
_NODELAY = (4, "SOL_TCP", "TCP_NODELAY")
_MOST_EDITS = 3
# The kinds of new inputs: the weight of each, and its weight where a theme comes first.
_KINDS: Mapping[str, tuple[int, Theme | None, int]] = {
    "write": (10, None, 10),
    "close": (2, Theme.CLOSE, 8),
    "no delay": (2, Theme.SMALL, 4),
    "odd": (2, Theme.IRREGULAR, 6),
    "ACK": (18, None, 18),
}


@dataclass(frozen=True)
class CorpusEntry:
    """Inputs that have reached something new, with their recording under the sender before."""

    inputs: Inputs
    recording: str


@dataclass(frozen=True)
class MutatedInputs:
    """Inputs that are varied: those to begin with, and whether a scenario goes on from there."""

    begun: Inputs
    goes_on: bool


class InputMutator:
    """Varies inputs by a seed."""

    def __init__(self, seed: int, emphasis: Emphasis) -> None:
        self._random = Random(seed)
        self._keys = sorted(set(KEYS) - emphasis.fixed)
        self._first = sorted(emphasis.keys - emphasis.fixed)
        self._weights = [more if theme in emphasis.themes else some for some, theme, more in _KINDS.values()]

    def choose_kept_entry_favouring_latest(self, kept: Sequence[CorpusEntry], latest: int) -> CorpusEntry:
        """One of those that are kept: each second time one of the latest."""
        return self._pick(kept if self._random.random() < 0.5 else kept[-latest:])

    def mutate_inputs_and_maybe_truncate(self, kept: CorpusEntry) -> MutatedInputs:
        """Inputs that are like these."""
        states = states_before_inputs_and_at_end(list(parse_played_events(kept.recording)))
        events = list(kept.inputs.events)
        open_from = next((place for place, it in enumerate(states) if it.is_open), len(events))
        place = self._draw_place_favouring_recovery(states, min(open_from, len(events)), len(events))
        goes_on = self._random.random() < 0.7
        if goes_on:
            del events[place:]
        for _ in range(self._random.randint(0 if goes_on else 1, _MOST_EDITS)):
            at = max(min(open_from, len(events)), min(len(events), place) - self._random.randint(0, 4))
            self._insert_move_delete_or_change_event(events, at, states[min(at, len(states) - 1)])
        settings = self._settings_with_at_most_one_drawn_anew(kept.inputs.settings)
        return MutatedInputs(Inputs(settings, _with_rising_moments(events), kept.inputs.is_exact), goes_on)

    def _draw_place_favouring_recovery(self, states: Sequence[TracedState], first: int, last: int) -> int:
        """Where inputs are varied: each second time where the sender recovers, if it does."""
        recovering = [place for place, it in enumerate(states[: last + 1]) if first <= place and it.is_recovering]
        if recovering and self._random.random() < 0.5:
            return self._pick(recovering)
        return self._random.randint(first, last)

    def _pick(self, values: Sequence[T]) -> T:
        return self._random.choice(values)

    def _settings_with_at_most_one_drawn_anew(self, given: Settings) -> Settings:
        """Settings like these: mostly the same, or with another one."""
        if not self._keys or self._random.random() < (0.3 if self._first else 0.7):
            return given
        keys = self._first if self._first and self._random.random() < 0.8 else self._keys
        key = self._pick(keys)
        return sorted_settings({**dict(given), key: self._pick(KEYS[key])})

    def _insert_move_delete_or_change_event(self, events: list[Input], at: int, state: TracedState) -> None:
        """Changes, moves or deletes an event, or puts one before it."""
        there = events[at] if at < len(events) else None
        if there is None or self._random.random() < 0.5:
            moment = events[at - 1].at + self._draw_gap_near_timer_or_preset(events[at - 1].at, state) if at else 0
            events.insert(at, Input(moment, self._draw_new_input(state)))
        elif self._random.random() < 0.3:
            self._move_event_and_later(events, at, state)
        elif self._random.random() < 0.2:
            del events[at]
        elif isinstance(there.what, Packet):
            events[at] = replace(there, what=self._change_packet_field(there.what, state))
        elif there.what.name == _WRITE:
            events[at] = replace(there, what=make_unrecorded_call(_WRITE, 4, "...", self._pick(_SIZES)))

    def _draw_gap_near_timer_or_preset(self, now: int, state: TracedState) -> int:
        """How long something waits: until the timer expires or an RTO, a little more or less, or some round time."""
        expiry, timeout = state.fact_as_moment("expiry"), state.fact_as_moment("RTO")
        around = [it for it in (expiry and expiry - now, timeout) if it]
        if around and self._random.random() < 0.4:
            return max(0, self._pick(around) + self._pick((-100_000, -1, 0, 1, 1_000)))
        return self._pick(_GAPS)

    def _move_event_and_later(self, events: list[Input], at: int, state: TracedState) -> None:
        """Moves an event and all after it."""
        before = events[at - 1].at if at else 0
        by = before + self._draw_gap_near_timer_or_preset(before, state) - events[at].at
        events[at:] = [replace(it, at=it.at + by) for it in events[at:]]

    def _draw_new_input(self, state: TracedState) -> Packet | Call:
        """A call or a packet that isn't there yet."""
        match self._random.choices(list(_KINDS), self._weights)[0]:
            case "write":
                return make_unrecorded_call(_WRITE, 4, "...", self._pick(_SIZES))
            case "close":
                return make_unrecorded_call("close", 4)
            case "no delay":
                return make_unrecorded_call(
                    "setsockopt", self._pick((3, 4)), *_NODELAY[1:], self._pick(("[0]", "[1]")), 4
                )
            case "odd":
                return make_dataless_inbound_packet(
                    self._pick(("F.", "R", "R.", "-")), self._pick((1, 1, 2)), self._draw_ack_number(state), 257
                )
        return self._draw_ack(state)

    def _draw_ack(self, state: TracedState) -> Packet:
        window = self._pick((257, 32_792, self._pick(_WINDOWS)))
        blocks = self._draw_sack_blocks_in_or_around_flight(state) if self._random.random() < 0.5 else ()
        return make_dataless_inbound_packet(".", 1, self._draw_ack_number(state), window, blocks)

    def _draw_ack_number(self, state: TracedState) -> int:
        """An ack number: mostly in what is outstanding."""
        una, top, end = (state.fact_as_number_or_default(it, 1) for it in ("una", "top", "end"))
        offset = self._pick(_OFFSETS)
        return max(
            0, self._pick((una, una, una + offset, max(una, top - offset), top, top, top + 1, end, una - offset))
        )

    def _draw_sack_blocks_in_or_around_flight(self, state: TracedState) -> tuple[TcpOption, ...]:
        """A SACK option."""
        una, top = state.fact_as_number_or_default("una", 1), state.fact_as_number_or_default("top", 1)
        numbers: list[int] = []
        for _ in range(self._pick((1, 1, 2, 3))):
            left = max(0, self._pick((una + self._pick(_OFFSETS), una - 1_000, top - self._pick(_OFFSETS))))
            right = self._pick((left + 1_000, left + self._pick(_OFFSETS), una, top, top + 1_000))
            numbers += [left, right]
        end = (TcpOption("eol"),) if self._random.random() < 0.03 else ()
        return (*end, TcpOption("sack", tuple(numbers)))

    def _change_packet_field(self, what: Packet, state: TracedState) -> Packet:
        """A packet with another field."""
        match self._random.randrange(4):
            case 0:
                return replace(what, win=self._pick(_WINDOWS))
            case 1 if what.ack is not None:
                return replace(what, ack=self._draw_ack_number(state))
            case 2:
                options = self._draw_sack_blocks_in_or_around_flight(state)
                return replace(what, options=options, options_text=options_text(options))
        return replace(what, flags="F." if what.flags == "." else ".")


def _with_rising_moments(events: Sequence[Input]) -> tuple[Input, ...]:
    """Events none of which comes before the one before it."""
    ordered: list[Input] = []
    for it in events:
        at = max(it.at, ordered[-1].at) if ordered else it.at
        ordered.append(replace(it, at=at))
    return tuple(ordered)
