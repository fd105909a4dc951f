"""Searches for inputs that are a find, as long as there is time, and shrinks what it finds."""

import time
from collections.abc import Callable, Iterable, Iterator, Sequence
from dataclasses import dataclass, replace

from pdsuite.packetdrill.items import Packet
from pdsuite.programs.recorder import Recording
from pdsuite.search.candidates import CandidateLists
from pdsuite.search.continuations import continued_inputs_of_find
from pdsuite.search.coverage import Coverage
from pdsuite.search.find import DiffersTest, Find, FindTest, SenderDifference
from pdsuite.search.inputs import Inputs
from pdsuite.search.oracle import SenderOracle
from pdsuite.search.shrink import shrink_find, size_of_inputs
from pdsuite.search.simulate import InputSteps, PlayedInputs, play_on_from_inputs

# So many inputs on which senders differ, and no script fails, are tried with other ends, each with so many scenarios.
_TRIED = 6
_PLANS = 6


@dataclass(frozen=True)
class SearchResult:
    """The result of a search: a find, or one that no script shows, what was reached, and how long both parts took."""

    find: Find | None
    unshown: Find | None
    coverage: Coverage
    seconds: float
    shrinking: float = 0.0  # in seconds


@dataclass(frozen=True)
class Search:
    """A search for finds by a test, and by a second one for those that their script doesn't show yet.

    Inputs are made for so many seconds, or, where a count is given, until so many were tried however long that takes.
    A find is shrunk for so many seconds at most.
    """

    before: SenderOracle
    test: FindTest
    hidden: DiffersTest | None
    candidates: CandidateLists
    seconds: float
    count: int | None = None

    def run(self, advance: Callable[[int], None]) -> SearchResult:
        """Searches until something is found, or the time or the count is reached."""
        begin = time.monotonic()
        coverage = Coverage()
        unshown: Find | None = None
        for games in self.candidates.input_list_for_each_size():
            played = [it for it in play_input_steps_in_joint_recordings(games, self.before) if it.recording.text]
            _count_reached_states_options_and_settings(coverage, played)
            self.candidates.keep_inputs_with_new_steps(played)
            found, hidden = self._find_or_continued_find_and_unshown_one(played)
            unshown = unshown or hidden
            if found is not None:
                return self._shrink_find_into_search_result(found, self.test, coverage, time.monotonic() - begin)
            advance(coverage.inputs)
            if self._is_limit_reached(coverage, time.monotonic() - begin):
                break
        if unshown is not None and self.hidden is not None:
            return self._shrink_find_into_search_result(unshown, self.hidden, coverage, time.monotonic() - begin)
        return SearchResult(None, None, coverage, time.monotonic() - begin)

    def _is_limit_reached(self, coverage: Coverage, seconds: float) -> bool:
        return seconds >= self.seconds if self.count is None else coverage.inputs >= self.count

    def _shrink_find_into_search_result(
        self, find: Find, test: FindTest, coverage: Coverage, seconds: float
    ) -> SearchResult:
        begin = time.monotonic()
        least = shrink_find(find, test, self.before, self.seconds)
        found, unshown = (least, None) if test is self.test else (None, least)
        return SearchResult(found, unshown, coverage, seconds, time.monotonic() - begin)

    def _find_or_continued_find_and_unshown_one(
        self, played: Sequence[PlayedInputs]
    ) -> tuple[Find | None, Find | None]:
        """The simplest find, or else the simplest input on which senders play otherwise, and nothing shows it."""
        inputs, recordings = [it.inputs for it in played], [it.recording for it in played]
        if self.hidden is None:
            return _simplest_find(self.test.find_or_none_for_each_input(inputs, recordings)), None
        differences = [it for it in self.hidden.sender_differences(inputs, recordings) if it is not None]
        shown = sorted((it for it in differences if it.is_played), key=_difference_size)
        found = self._simplest_find_of_retested_finds([it.find for it in shown])
        if found is not None:
            return found, None
        further = [more for it in shown[:_TRIED] for more in continued_inputs_of_find(it.find)]
        found = (
            _simplest_find(
                self.test.find_or_none_for_each_input(further, self.before.record_inputs_or_scripts(further))
            )
            if further
            else None
        )
        if found is None:
            found = self._simplest_find_played_on_from_differences(
                sorted((it for it in differences if not it.is_played), key=_difference_size) + shown
            )
        return found, self.hidden.first_find(shown)

    def _simplest_find_of_retested_finds(self, finds: Sequence[Find]) -> Find | None:
        inputs = [it.inputs for it in finds]
        return (
            _simplest_find(self.test.find_or_none_for_each_input(inputs, [Recording(it.recording) for it in finds]))
            if inputs
            else None
        )

    def _simplest_find_played_on_from_differences(self, differences: Sequence[SenderDifference]) -> Find | None:
        """A find among inputs that go on from where the senders began to differ."""
        begun = list(dict.fromkeys(_inputs_until_difference(it) for it in differences))[:_TRIED]
        if not begun:
            return None
        scenarios = self.candidates.generate_further_scenarios(len(begun) * _PLANS)
        played = play_input_steps_in_joint_recordings(
            [play_on_from_inputs(scenario, begun[number % len(begun)]) for number, scenario in enumerate(scenarios)],
            self.before,
        )
        there = [it for it in played if it.recording.text]
        self.candidates.keep_inputs_with_new_steps(there)
        return (
            _simplest_find(
                self.test.find_or_none_for_each_input([it.inputs for it in there], [it.recording for it in there])
            )
            if there
            else None
        )


def _difference_size(it: SenderDifference) -> tuple[int, int]:
    return it.after, len(it.find.inputs.events)


def _inputs_until_difference(it: SenderDifference) -> Inputs:
    """The inputs up to the one after which senders differ."""
    return replace(it.find.inputs, events=it.find.inputs.events[: it.after])


def play_input_steps_in_joint_recordings(games: Iterable[InputSteps], oracle: SenderOracle) -> list[PlayedInputs]:
    """Plays side by side: all that is requested next is recorded at once. The results come in the order of games."""
    running = list(enumerate(games))
    pending = [(number, game, next(game)) for number, game in running]
    done: dict[int, PlayedInputs] = {}
    while pending:
        recordings = oracle.record_inputs_or_scripts([inputs for _, _, inputs in pending])
        pending = list(
            _advance_input_steps_and_store_done([(number, game) for number, game, _ in pending], recordings, done)
        )
    return [done[number] for number in sorted(done)]


def _advance_input_steps_and_store_done(
    games: Sequence[tuple[int, InputSteps]], recordings: Sequence[Recording], done: dict[int, PlayedInputs]
) -> Iterator[tuple[int, InputSteps, Inputs]]:
    """The games that go on, each with what it requests next; those that end come to the ones that are done."""
    for (number, game), recording in zip(games, recordings):
        try:
            yield number, game, game.send(recording)
        except StopIteration as end:
            done[number] = end.value


def _simplest_find(finds: Iterable[Find | None]) -> Find | None:
    there = sorted((it for it in finds if it is not None), key=lambda it: size_of_inputs(it.inputs))
    return there[0] if there else None


def _count_reached_states_options_and_settings(coverage: Coverage, played: Iterable[PlayedInputs]) -> None:
    for it in played:
        syns = [event.what for event in it.inputs.events if isinstance(event.what, Packet) and event.what.flags == "S"]
        options = [option.name for syn in syns for option in syn.options]
        coverage.count_reached_by_input(it.recording.text, options, [key for key, _ in it.inputs.settings])
