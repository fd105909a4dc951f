"""The goal of a search: rules of the sender that one event comes to, and facts of the state after that event.

A search for a difference of two senders has a goal of rules alone, which an event comes to under one of them.
"""

from collections.abc import Sequence
from dataclasses import dataclass
from fnmatch import fnmatchcase
from itertools import compress

from pdsuite.compare.divergence import parse_played_events
from pdsuite.programs.protocol import RulesByLine
from pdsuite.programs.recorder import Recording
from pdsuite.search.coverage import StatePattern, parse_state_pattern_if_valid
from pdsuite.search.find import Find, FindTest, ReachesTest, configured_script_of_find
from pdsuite.search.inputs import Inputs
from pdsuite.search.oracle import ConfiguredScript, RulesOracle

_RULE = "rule"


@dataclass(frozen=True)
class SearchGoal:
    """The names of rules that one event comes to, which may have `*` and `?`, and the state after it."""

    rules: tuple[str, ...]
    state: StatePattern

    def lines_with_all_rules(self, rules: RulesByLine) -> set[int]:
        """The lines of which an event comes to all rules."""
        return {line for line, names in rules.items() if self._has_all_rules(names)}

    def _has_all_rules(self, names: Sequence[str]) -> bool:
        return all(any(fnmatchcase(name, rule) for name in names) for rule in self.rules)

    def test_by_oracle(self, oracle: RulesOracle) -> FindTest:
        """The test of which inputs reach it. Only if there are rules the oracle is queried."""
        if not self.rules:
            return ReachesTest(self.state)
        oracle.require_that_rules_are_listed()
        return ComesToRulesTest(self, oracle)


def parse_goal_if_valid(text: str) -> SearchGoal | None:
    """The goal that a text says, if it says one: `rule:NAME` is a rule, any other `NAME:VALUE` a fact of the state."""
    words = parse_state_pattern_if_valid(text)
    if words is None:
        return None
    rules = tuple(value for name, value in words.facts if name == _RULE)
    return SearchGoal(rules, StatePattern(tuple(it for it in words.facts if it[0] != _RULE)))


@dataclass(frozen=True)
class ComesToRulesTest:
    """Finds inputs whose recording has an event that comes to the rules of a goal and reaches its state."""

    goal: SearchGoal
    oracle: RulesOracle

    def find_or_none_for_each_input(
        self, inputs: Sequence[Inputs], recordings: Sequence[Recording]
    ) -> list[Find | None]:
        # A script is run twice for its rules, so only those are that reach the state.
        reached = ReachesTest(self.goal.state).find_or_none_for_each_input(inputs, recordings)
        scripts = [configured_script_of_find(it) for it in reached if it is not None]
        listed = iter(self.oracle.list_rules_of_scripts(scripts))
        return [it if it is not None and self._is_met_by(it, next(listed)) else None for it in reached]

    def _is_met_by(self, find: Find, rules: RulesByLine) -> bool:
        """Whether an event of a recording, which has a line for each, comes to all rules and reaches the state."""
        lines = self.goal.lines_with_all_rules(rules)
        played = enumerate(parse_played_events(find.recording), find.inputs.header_line_count + 1)
        return bool(lines) and any(line in lines and self.goal.state.fits_state(it.state) for line, it in played)


@dataclass(frozen=True)
class RulesOnEitherSide:
    """Leaves out finds of which no event comes to the rules of a goal under any of the senders.

    A script of a find ends with the line that fails, so no later line counts.
    """

    goal: SearchGoal
    oracles: Sequence[RulesOracle]

    def __call__(self, finds: Sequence[Find | None]) -> list[Find | None]:
        there = [it for it in finds if it is not None]
        met = [False] * len(there)
        for oracle in self.oracles:
            # Who meets the goal under one sender isn't run under the other.
            places = [place for place, is_met in enumerate(met) if not is_met]
            listed = oracle.list_rules_of_scripts([configured_script_of_find(there[place]) for place in places])
            for place, rules in zip(places, listed):
                met[place] = self._is_met_by(there[place], rules)
        each = iter(met)
        return [it if it is not None and next(each) else None for it in finds]

    def _is_met_by(self, find: Find, rules: RulesByLine) -> bool:
        last = None if find.row is None else find.row.line
        return any(last is None or line <= last for line in self.goal.lines_with_all_rules(rules))


def scripts_at_rules_first(
    scripts: list[ConfiguredScript], goal: SearchGoal | None, oracle: RulesOracle
) -> list[ConfiguredScript]:
    """The scripts that come to the rules of a goal, if there is one, whose variations often do so, too; then others."""
    if goal is None:
        return scripts
    is_there = [bool(goal.lines_with_all_rules(it)) for it in oracle.list_rules_of_scripts(scripts)]
    return [*compress(scripts, is_there), *compress(scripts, [not it for it in is_there])]
