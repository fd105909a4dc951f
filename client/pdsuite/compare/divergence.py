"""Two recordings of one script's inputs, event by event: the first event in which they differ."""

from collections.abc import Iterator
from dataclasses import dataclass
from itertools import zip_longest

# pdrecord keeps each comment of a script apart from the lines of its trace, which begin so.
_STATE = "//= at "
_SENT_BY = " sent_by:"
_COMMENT = "//"


@dataclass(frozen=True, slots=True)
class PlayedEvent:
    """An event as a recording has it, its moment, and the sender's state after it."""

    line: str
    moment: str
    state: str

    def __str__(self) -> str:
        return f"{self.line} // {self.moment}"


@dataclass(frozen=True, slots=True)
class Divergence:
    """Where two recordings part: each one's event there, or None at its end, and the sender's state before it."""

    before: PlayedEvent | None
    after: PlayedEvent | None
    state_before: str
    state_after: str


def parse_played_events(recording: str) -> Iterator[PlayedEvent]:
    """The events of a recording that was made with a trace."""
    lines: list[str] = []
    for line in recording.split("\n"):
        if line.startswith(_STATE):
            moment, _, state = line.removeprefix(_STATE).partition(" ")
            yield PlayedEvent(" ".join(lines), moment, state.partition(_SENT_BY)[0])
            lines = []
        elif line and not line.startswith(_COMMENT):
            lines.append(line)


def first_divergence_in_event_or_time(before: str, after: str) -> Divergence | None:
    """Where two recordings part, if they do: by an event or its moment. A state alone makes no difference."""
    states = ("", "")
    if before == after:
        return None
    for one, other in zip_longest(parse_played_events(before), parse_played_events(after)):
        if one is None or other is None or (one.line, one.moment) != (other.line, other.moment):
            return Divergence(one, other, *states)
        states = (one.state, other.state)
    return None
