"""Draws what a search tries, list by list: new scenarios, and variations of inputs that reached something new."""

from collections.abc import Iterable, Iterator, Sequence
from dataclasses import dataclass, field

from pdsuite.search.generate import numbered_scenario_list_of_seed_and_size
from pdsuite.search.mutate import CorpusEntry, InputMutator
from pdsuite.search.scenario import Emphasis, Scenario
from pdsuite.search.simulate import (
    InputSteps,
    PlayedInputs,
    play_inputs_dropping_refused,
    play_on_from_inputs,
    play_scenario,
)
from pdsuite.search.states import StateStep, state_steps_in

# Lists of scenarios for what goes on from some inputs are numbered from here.
_FURTHER = 500_000
# Of the inputs that are kept, the last so many are varied most.
_LATEST = 32


@dataclass
class CandidateLists:
    """The lists of inputs that a search tries, by a seed: the same lists for the same recordings.

    Each list has as many inputs as its size says: new scenarios, and as many variations once some inputs are kept. The
    first lists begin with the initial inputs on top of that, each with at most twice its size of them.
    """

    seed: int
    sizes: Iterable[int]
    emphasis: Emphasis = Emphasis()
    initial_inputs: Sequence[CorpusEntry] = ()
    _kept: list[CorpusEntry] = field(default_factory=list)
    _seen: set[StateStep] = field(default_factory=set)
    _further: int = 0

    def __post_init__(self) -> None:
        self._waiting = list(self.initial_inputs)
        self._mutator = InputMutator(self.seed, self.emphasis)

    def input_list_for_each_size(self) -> Iterator[list[InputSteps]]:
        """The lists, each made when all of the one before was learnt from."""
        for number, size in enumerate(self.sizes):
            yield list(self._take_waiting_fresh_and_varied_inputs(number, size))

    def _take_waiting_fresh_and_varied_inputs(self, number: int, size: int) -> Iterator[InputSteps]:
        first, self._waiting = self._waiting[: 2 * size], self._waiting[2 * size :]
        yield from (play_inputs_dropping_refused(it.inputs) for it in first)
        scenarios = numbered_scenario_list_of_seed_and_size(self.seed, number, size, self.emphasis)
        varied = size // 2 if self._kept else 0
        yield from (play_scenario(it) for it in scenarios[varied:])
        yield from (self._vary_kept_inputs(it) for it in scenarios[:varied])

    def generate_further_scenarios(self, count: int) -> list[Scenario]:
        """So many further scenarios."""
        self._further += 1
        return numbered_scenario_list_of_seed_and_size(self.seed, _FURTHER + self._further, count, self.emphasis)

    def keep_inputs_with_new_steps(self, played: Iterable[PlayedInputs]) -> None:
        """Keeps what reached a state of the sender, by a step, that none before reached."""
        for it in played:
            steps = set(state_steps_in(it.recording.text))
            if steps - self._seen:
                self._seen |= steps
                self._kept.append(CorpusEntry(it.inputs, it.recording.text))

    def _vary_kept_inputs(self, scenario: Scenario) -> InputSteps:
        """A variation of what is kept, which may go on by a scenario."""
        variation = self._mutator.mutate_inputs_and_maybe_truncate(
            self._mutator.choose_kept_entry_favouring_latest(self._kept, _LATEST)
        )
        return (
            play_on_from_inputs(scenario, variation.begun)
            if variation.goes_on
            else play_inputs_dropping_refused(variation.begun)
        )
