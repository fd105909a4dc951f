"""The rules that the scripts of a run come to: gathered from its steps, and counted."""

from collections.abc import Callable, Iterable, Mapping, Sequence
from dataclasses import dataclass, field
from typing import TypeVar

from pdsuite.programs.protocol import RulesByLine
from pdsuite.programs.verdict import Verdict
from pdsuite.reports.outcome_text import one_line_summary
from pdsuite.rules.rule_list import SenderRule
from pdsuite.run.outcomes import ScriptOutcome
from pdsuite.run.run_batches import SettledPiece, Step, UnexplainedScript

# The verdicts of a script of which no event runs, because of its file or its text.
_FAULTS = (Verdict.ERROR, Verdict.SYNTAX)

T = TypeVar("T")


@dataclass(frozen=True, slots=True)
class ReachedRules:
    """A script: its path, how many lines it has, and the rules that its events came to, by their lines."""

    path: str
    line_count: int
    rules_by_line: RulesByLine

    @property
    def rule_names(self) -> list[str]:
        """The rules, each once."""
        return list(dict.fromkeys(name for names in self.rules_by_line.values() for name in names))

    def lines_of_rule(self, name: str) -> list[int]:
        """The lines whose events came to a rule."""
        return [line for line, names in self.rules_by_line.items() if name in names]


@dataclass(frozen=True)
class RuleRun:
    """The scripts of a run with their rules, in the order of paths; and a line for each that couldn't be run."""

    scripts: Sequence[ReachedRules]
    not_passing_count: int
    fault_lines: Sequence[str]


@dataclass(frozen=True, slots=True)
class RuleUse:
    """A rule, and the scripts that come to it, in the order of paths."""

    rule: SenderRule
    scripts: list[ReachedRules] = field(default_factory=list)

    @property
    def shortest(self) -> ReachedRules | None:
        """The first of the scripts that have the fewest lines, if there is one."""
        return min(self.scripts, key=lambda it: it.line_count) if self.scripts else None


def gather_reached_rules(
    steps: Iterable[Step], note: Callable[[str], None], progress: Callable[[int], None]
) -> RuleRun:
    """The rules of all scripts; `note` gets a line where a program ended, `progress` how many scripts are done."""
    outcomes: dict[int, ScriptOutcome] = {}
    reached: dict[int, ReachedRules] = {}
    faults: dict[int, str] = {}
    progress(0)
    for step in steps:
        match step:
            case SettledPiece():
                outcomes |= {script.index: outcome for script, outcome in step.outcomes}
                reached |= _reached_rules_of_piece(step)
                progress(len(outcomes))
            case UnexplainedScript():
                faults[step.script.index] = str(step)
            case _:
                note(str(step))
    faults |= {index: one_line_summary(it) for index, it in outcomes.items() if _is_unknown_fault(it)}
    return RuleRun(
        _values_in_order_of_keys(reached),
        sum(it.row.verdict is not Verdict.PASS for it in outcomes.values()),
        _values_in_order_of_keys(faults),
    )


def _reached_rules_of_piece(piece: SettledPiece) -> dict[int, ReachedRules]:
    """The scripts of a piece, by their places; one whose file can't be read has no line."""
    lines = {index: text.lines for index, text in piece.texts.items()}
    return {
        script.index: ReachedRules(script.path, lines.get(script.index, 0), piece.rules.get(script.index, {}))
        for script, _ in piece.outcomes
    }


def _is_unknown_fault(outcome: ScriptOutcome) -> bool:
    """Whether a script has no events to run, and isn't known to have none."""
    return outcome.row.verdict in _FAULTS and not outcome.is_known_failure


def _values_in_order_of_keys(values: Mapping[int, T]) -> list[T]:
    return [it for _, it in sorted(values.items())]


def uses_of_rules_by_name(rules: Iterable[SenderRule], scripts: Iterable[ReachedRules]) -> dict[str, RuleUse]:
    """Each rule with the scripts that come to it, by its name.

    A rule that a script comes to and that isn't among them is the last, without words.
    """
    uses = {it.name: RuleUse(it) for it in rules}
    for script in scripts:
        for name in script.rule_names:
            uses.setdefault(name, RuleUse(SenderRule(name))).scripts.append(script)
    return uses


def sort_by_fewest_scripts(uses: Iterable[RuleUse]) -> list[RuleUse]:
    """The rules with fewer scripts before those with more; of as many, in the order that they have."""
    return sorted(uses, key=lambda it: len(it.scripts))
