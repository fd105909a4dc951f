"""The states of a sender, by its trace: facts as numbers, and the kind of a state, whatever the numbers are."""

from collections.abc import Iterator, Mapping, Sequence
from dataclasses import dataclass, field

from pdsuite.compare.divergence import PlayedEvent, parse_played_events
from pdsuite.packetdrill.items import SECOND

# How two states differ of which one follows the other: the kind before, what happened, and the kind after.
StateStep = tuple[str, str, str]
_SEGMENT = 1_000
_NONE = "none"


@dataclass(frozen=True, slots=True)
class TracedState:
    """A state: its name, and its facts as the trace has them."""

    name: str
    facts: Mapping[str, str] = field(default_factory=dict)

    def fact_as_number_or_default(self, name: str, default: int = 0) -> int:
        """A fact that is a number, or what holds where there is none."""
        value = self.facts.get(name, "")
        return int(value) if value.isdecimal() else default

    def fact_as_moment(self, name: str) -> int | None:
        """A fact that is a time, in microseconds."""
        return parse_moment(self.facts.get(name, ""))

    @property
    def is_open(self) -> bool:
        """Whether the connection is established, and no RST has come."""
        return "cwnd" in self.facts and self.name != "CLOSED"

    @property
    def is_recovering(self) -> bool:
        """Whether loss recovery goes on."""
        return self.facts.get("recovery", _NONE) != _NONE

    @property
    def rough_kind(self) -> str:
        """The kind of the state: numbers count by their order and by rough sizes alone."""
        una, top = self.fact_as_number_or_default("una"), self.fact_as_number_or_default("top")
        cwnd, flight, rwnd = (
            self.fact_as_number_or_default("cwnd"),
            self.fact_as_number_or_default("FlightSize"),
            self.fact_as_number_or_default("rwnd"),
        )
        parts = [
            self.name,
            self.facts.get("recovery", ""),
            self.facts.get("connection", ""),
            str(min(self.fact_as_number_or_default("DupAcks"), 3)),
            _comparison_character(cwnd, self.fact_as_number_or_default("ssthresh")),
            _comparison_character(flight, cwnd),
            _comparison_character(flight, rwnd) if rwnd else "0",
            _comparison_character(self.fact_as_number_or_default("next"), top),
            _comparison_character(top, self.fact_as_number_or_default("end")),
            str(min(flight // _SEGMENT, 4)) if flight else "none",
            "runs" if self.fact_as_moment("expiry") is not None else "stopped",
            _comparison_character(self.fact_as_number_or_default("pipe"), cwnd) if "pipe" in self.facts else "",
            _comparison_character(
                self.fact_as_number_or_default("prr_delivered"), self.fact_as_number_or_default("prr_out")
            )
            if una < top
            else "",
        ]
        return " ".join(parts)


def parse_moment(text: str) -> int | None:
    """A time in seconds with decimals, in microseconds."""
    whole, _, part = text.partition(".")
    return int(whole) * SECOND + int(part.ljust(6, "0")) if whole.isdecimal() and part.isdecimal() else None


def parse_state(text: str) -> TracedState:
    """The state that a trace says."""
    name, *facts = text.split(" ")
    return TracedState(name, dict(it.split(":", 1) for it in facts))


def is_input(it: PlayedEvent) -> bool:
    """Whether an event is a call or a packet that arrives."""
    return it.line.split(" ", 2)[1:2] != [">"]


def states_before_inputs_and_at_end(played: Sequence[PlayedEvent]) -> list[TracedState]:
    """The sender's state before each input, and last the one at the end."""
    states = [TracedState("CLOSED")]
    last = states[0]
    for it in played:
        if is_input(it):
            states.append(last)
        last = parse_state(it.state)
    return [*states[1:], last]


def state_steps_in(recording: str) -> Iterator[StateStep]:
    """The steps of a recording: each from one kind of state to another, or on which a packet leaves."""
    before = kind = last = ""
    for it in parse_played_events(recording):
        # Most events leave the state as it is, and to find its kind costs most here.
        if it.state != last:
            kind, last = parse_state(it.state).rough_kind, it.state
        what = _rough_event_name(it)
        if kind != before or what != "leaves":
            yield before, what, kind
        before = kind


def _rough_event_name(it: PlayedEvent) -> str:
    """A rough name of the event."""
    words = it.line.split(" ")
    if words[1:2] == [">"]:
        return "leaves"
    if words[1:2] == ["<"]:
        return f"{words[2]} {'sack' if 'sack ' in it.line else ''}"
    return words[1].partition("(")[0] if len(words) > 1 else ""


def _comparison_character(one: int, other: int) -> str:
    return "<" if one < other else "=" if one == other else ">"
