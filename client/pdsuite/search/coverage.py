"""The coverage of recordings: how many have data in flight, a recovery, an expiry, a reset, and each way of closing."""

import re
from collections import Counter
from collections.abc import Iterable, Iterator, Mapping
from dataclasses import dataclass, field
from fnmatch import fnmatchcase

from pdsuite.compare.divergence import PlayedEvent, parse_played_events

_FLIGHT = re.compile(r" FlightSize:([1-9]\d*)")
_RECOVERY = re.compile(r" recovery:(?!none)(\S+)")
_EXPIRY = re.compile(r" expiry:(\d\S+)")
_CLOSING = {
    "FIN-WAIT-1": "closed by us",
    "CLOSE-WAIT": "closed by the peer",
    "CLOSING": "closed by both at once",
}
_RESET = "connection:reset"
_STATE = "state"

FLIGHT = "data in flight"
RECOVERY = "a recovery"
EXPIRY = "an expiry"
RESET = "a reset"
SHARES = (FLIGHT, RECOVERY, EXPIRY, *_CLOSING.values(), RESET)


@dataclass
class Coverage:
    """How many inputs were made, and how many reach what: shares, states, options of SYNs and settings."""

    inputs: int = 0
    counts: Counter[str] = field(default_factory=Counter)
    states: Counter[str] = field(default_factory=Counter)
    options: Counter[str] = field(default_factory=Counter)
    settings: Counter[str] = field(default_factory=Counter)

    def count_reached_by_input(self, recording: str, options: Iterable[str], settings: Iterable[str]) -> None:
        """Counts what one input reaches."""
        self.inputs += 1
        events = list(parse_played_events(recording))
        self.counts.update(set(_reached_flight_recovery_expiry_closing_reset(events)))
        self.states.update({_state_name_of(it) for it in events})
        self.options.update(set(options))
        self.settings.update(set(settings))

    @property
    def input_shares_by_reached_name(self) -> Mapping[str, float]:
        """The share of the inputs that reach each, from 0 to 1."""
        return {name: self.counts[name] / max(self.inputs, 1) for name in SHARES}


def _reached_flight_recovery_expiry_closing_reset(events: Iterable[PlayedEvent]) -> Iterator[str]:
    expiry = ""
    for it in events:
        name = _state_name_of(it)
        if name not in ("SYN-RECEIVED", "LISTEN") and _FLIGHT.search(it.state):
            yield FLIGHT
        if _RECOVERY.search(it.state):
            yield RECOVERY
        if " > " in it.line and expiry == it.moment:
            yield EXPIRY
        if name in _CLOSING:
            yield _CLOSING[name]
        if _RESET in it.state:
            yield RESET
        found = _EXPIRY.search(it.state)
        expiry = found[1] if found else ""


def _state_name_of(it: PlayedEvent) -> str:
    """The state's name."""
    return it.state.partition(" ")[0]


@dataclass(frozen=True)
class StatePattern:
    """Facts of one state, `NAME:VALUE` each; the name of a state is `state:NAME`. A value may have `*` and `?`."""

    facts: tuple[tuple[str, str], ...]

    def is_reached_in(self, recording: str) -> bool:
        """Whether a state of a recording has all of them."""
        return any(self.fits_state(it.state) for it in parse_played_events(recording))

    def fits_state(self, state: str) -> bool:
        """Whether a state has all of them."""
        name, *facts = state.split(" ")
        there = {_STATE: name} | dict(it.split(":", 1) for it in facts)
        return all(key in there and fnmatchcase(there[key], value) for key, value in self.facts)


def parse_state_pattern_if_valid(text: str) -> StatePattern | None:
    """The pattern that a text says, if it says one."""
    words = [it.partition(":") for it in text.split()]
    if not words or any(not name or not value for name, _, value in words):
        return None
    return StatePattern(tuple((name, value) for name, _, value in words))
