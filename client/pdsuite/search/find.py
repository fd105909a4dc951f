"""The finds of a search: recorded inputs under which another sender differs, or a state is reached."""

from collections.abc import Callable, Sequence
from dataclasses import dataclass
from typing import Protocol

from pdsuite.compare.divergence import first_divergence_in_event_or_time, parse_played_events
from pdsuite.programs.recorder import Recording
from pdsuite.programs.verdict import Row, Verdict
from pdsuite.search.coverage import StatePattern
from pdsuite.search.inputs import Inputs
from pdsuite.search.oracle import ConfiguredScript, SenderOracle
from pdsuite.search.states import is_input

TRACE = "//= "


@dataclass(frozen=True)
class Find:
    """Inputs, their recording under the sender before, and the row that it has under the one after, if it fails."""

    inputs: Inputs
    recording: str
    row: Row | None = None


# Leaves out finds that don't count: there is none in the place of such a find.
FindFilter = Callable[[Sequence[Find | None]], list[Find | None]]


class FindTest(Protocol):
    """Decides which inputs are finds."""

    def find_or_none_for_each_input(
        self, inputs: Sequence[Inputs], recordings: Sequence[Recording]
    ) -> list[Find | None]:
        """The finds among inputs, by their recordings."""


def script_without_trace(recording: str) -> bytes:
    """A recording as a script, without the sender's states."""
    lines = (it for it in recording.split("\n") if not it.startswith(TRACE))
    return "\n".join(lines).encode("utf-8", "surrogateescape")


def configured_script_of_find(find: Find) -> ConfiguredScript:
    """The script that a find is saved as."""
    return ConfiguredScript(find.inputs.settings, script_without_trace(find.recording))


@dataclass(frozen=True)
class FailsTest:
    """Finds inputs whose recording fails under another sender, if they count."""

    other: SenderOracle
    without_others: FindFilter = list

    def find_or_none_for_each_input(
        self, inputs: Sequence[Inputs], recordings: Sequence[Recording]
    ) -> list[Find | None]:
        made = [Find(it, recording.text) if recording.text else None for it, recording in zip(inputs, recordings)]
        rows = iter(self.other.run_scripts_for_rows([configured_script_of_find(it) for it in made if it is not None]))
        finds = [None if it is None else Find(it.inputs, it.recording, next(rows)) for it in made]
        failing = [
            it if it is not None and it.row is not None and it.row.verdict is not Verdict.PASS else None for it in finds
        ]
        return self.without_others(failing)


@dataclass(frozen=True)
class SenderDifference:
    """Inputs on which two senders differ: in what is played, or in a state alone; after so many inputs."""

    find: Find
    is_played: bool
    after: int


@dataclass(frozen=True)
class DiffersTest:
    """Finds inputs that another sender is recorded otherwise on, whether or not a script fails by it, if they count."""

    other: SenderOracle
    without_others: FindFilter = list

    def sender_differences(
        self, inputs: Sequence[Inputs], recordings: Sequence[Recording]
    ) -> list[SenderDifference | None]:
        """How the senders differ on each, if they do."""
        others = self.other.record_inputs_or_scripts(inputs)
        return [
            _sender_difference_in_play_or_state(it, one, other) for it, one, other in zip(inputs, recordings, others)
        ]

    def find_or_none_for_each_input(
        self, inputs: Sequence[Inputs], recordings: Sequence[Recording]
    ) -> list[Find | None]:
        others = self.other.record_inputs_or_scripts(inputs)
        differing = [
            Find(it, one.text) if one.text and _play_differently(one, other) else None
            for it, one, other in zip(inputs, recordings, others)
        ]
        return self.without_others(differing)

    def first_find(self, differences: Sequence[SenderDifference]) -> Find | None:
        """The first of the differences in what is played that counts."""
        finds = self.without_others([it.find for it in differences])
        return next((it for it in finds if it is not None), None)


@dataclass(frozen=True)
class ReachesTest:
    """Finds inputs whose recording reaches a state."""

    pattern: StatePattern

    def find_or_none_for_each_input(
        self, inputs: Sequence[Inputs], recordings: Sequence[Recording]
    ) -> list[Find | None]:
        return [
            Find(it, one.text) if self.pattern.is_reached_in(one.text) else None for it, one in zip(inputs, recordings)
        ]


def _sender_difference_in_play_or_state(inputs: Inputs, one: Recording, other: Recording) -> SenderDifference | None:
    if not one.text or one.text == other.text:
        return None
    if _play_differently(one, other):
        return SenderDifference(Find(inputs, one.text), True, len(inputs.events))
    count = 0
    for it, that in zip(parse_played_events(one.text), parse_played_events(other.text)):
        count += is_input(it)
        if it.state != that.state:
            return SenderDifference(Find(inputs, one.text), False, count)
    return None


def _play_differently(one: Recording, other: Recording) -> bool:
    return not other.text or first_divergence_in_event_or_time(one.text, other.text) is not None
