"""The forms in which rules are reported with their mutants: a table, a rule with all of its mutants; and as JSON."""

from collections.abc import Mapping, Sequence
from itertools import chain

from pdsuite.output.octets import printable_path, printable_text
from pdsuite.output.styled_text import StyledText
from pdsuite.rules.mutants import Guard, GuardedRule, TriedMutant
from pdsuite.rules.reached_rules import RuleRun
from pdsuite.rules.report import mark_of, object_text
from pdsuite.run.outcomes import UNPROVED

_LEFT_OUT = "left out"


def guards_text(rules: Sequence[GuardedRule], run: RuleRun, left_out: Mapping[str, str]) -> StyledText:
    """A line for each rule: how it is guarded, how many of its mutants turn scripts, its words, and those that live."""
    text = StyledText()
    names = max((len(it.use.rule.name) for it in rules), default=0)
    guards = max(map(len, Guard))
    for it in rules:
        count = f"{len(it.mutants) - len(it.living)} of {len(it.mutants)}"
        line = f"{it.use.rule.name:<{names}}  {it.guard:<{guards}}  {count:>8}  {it.use.rule.words}"
        text.append(f"{line.rstrip()}\n", "" if it.guard is Guard.GUARDED else "yellow")
        text.append("".join(f"  {_mutant_in_words(one)}\n" for one in it.living))
    total = " ".join(f"{key} {count}" for key, count in _totals(rules, run, left_out).items())
    return text.append(f"total {total.removeprefix('scripts ')} {UNPROVED}\n")


def _mutant_in_words(it: TriedMutant) -> str:
    return f"{it.mutant.name}: {printable_text(it.mutant.words)}"


def guard_of_rule_text(it: GuardedRule) -> StyledText:
    """A rule: how it is guarded, and each of its mutants with the scripts that turn."""
    text = StyledText().append(f"{it.use.rule.name}: {it.guard}\n")
    for mutant in it.mutants:
        text.append(f"  {_mutant_in_words(mutant)}\n", "" if mutant.turned else "yellow")
        text.append("".join(f"    {printable_path(path)}\n" for path in mutant.turned))
    return text


def guards_json(rules: Sequence[GuardedRule], run: RuleRun, left_out: Mapping[str, str]) -> StyledText:
    """The object of the rules, each with all of its mutants."""
    lost = [{"mutant": name, "why": why} for name, why in left_out.items()]
    last: dict[str, object] = {_LEFT_OUT: lost, "total": _totals(rules, run, left_out), **mark_of(True)}
    return object_text({}, "rules", map(_rule_object, rules), last)


def _rule_object(it: GuardedRule) -> Mapping[str, object]:
    mutants = [
        {
            "mutant": one.mutant.name,
            "words": printable_text(one.mutant.words),
            "turned": [printable_path(path) for path in one.turned],
        }
        for one in it.mutants
    ]
    rule: dict[str, object] = {"rule": it.use.rule.name, "words": it.use.rule.words, "guard": str(it.guard)}
    return {**rule, "scripts": len(it.use.scripts), "mutants": mutants}


def _totals(rules: Sequence[GuardedRule], run: RuleRun, left_out: Mapping[str, str]) -> dict[str, int]:
    mutants = {it.mutant.name: it for it in chain.from_iterable(it.mutants for it in rules)}
    return {
        "scripts": len(run.scripts),
        "not passing": run.not_passing_count,
        "rules": len(rules),
        **{str(guard): sum(it.guard is guard for it in rules) for guard in reversed(Guard)},
        "mutants": len(mutants),
        "living": sum(not it.turned for it in mutants.values()),
        _LEFT_OUT: len(left_out),
    }
