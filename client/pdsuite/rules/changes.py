"""The rules that other scripts come to after a change of the sender: found by what two senders do with the scripts."""

from collections.abc import Iterator, Mapping, Sequence

from pdsuite.compare.comparison import ComparedScript, ComparisonKind, SenderResults
from pdsuite.compare.rule_changes import RuleChange, RuleChanges, ScriptAtRule
from pdsuite.programs.protocol import RulesByLine
from pdsuite.rules.reached_rules import ReachedRules, RuleUse, uses_of_rules_by_name
from pdsuite.rules.rule_list import SenderRule, load_sender_rules


def changes_of_reached_rules(
    compared: Sequence[ComparedScript], before: SenderResults, after: SenderResults, names: tuple[str, str]
) -> RuleChanges:
    """The rules that other scripts come to under one of two senders, which have these names, than under the other.

    A script counts if it is compared, and if its rules are known under both.
    """
    if before.rules is None or after.rules is None:
        sides = zip(("before", "after"), names, (before.rules, after.rules))
        return RuleChanges(senders_without_rules={side: name for side, name, rules in sides if rules is None})
    known = before.rules.keys() & after.rules.keys()
    scripts = [it for it in compared if it.kind is not ComparisonKind.UNKNOWN and it.index in known]
    old = _uses_by_name(scripts, before, before.rules)
    new = _uses_by_name(scripts, after, after.rules)
    found = [_change_of_rule(name, old, new) for name in {**old, **new}]
    changes = sorted((it for it in found if it.size), key=lambda it: -it.size)
    return RuleChanges(tuple(changes), len(scripts))


def _uses_by_name(
    scripts: Sequence[ComparedScript], results: SenderResults, rules: Mapping[int, RulesByLine]
) -> dict[str, RuleUse]:
    """The rules with the scripts that come to them under a sender."""
    reached = (ReachedRules(it.path, results.texts[it.index].lines, rules[it.index]) for it in scripts)
    return uses_of_rules_by_name(load_sender_rules(), reached)


def _change_of_rule(name: str, old: Mapping[str, RuleUse], new: Mapping[str, RuleUse]) -> RuleChange:
    before, after = (it.get(name, RuleUse(SenderRule(name))) for it in (old, new))
    gone, added = tuple(_scripts_of_one_alone(before, after)), tuple(_scripts_of_one_alone(after, before))
    return RuleChange(name, before.rule.words, len(before.scripts), len(after.scripts), gone, added)


def _scripts_of_one_alone(one: RuleUse, other: RuleUse) -> Iterator[ScriptAtRule]:
    """The scripts of a use that another use of the rule lacks."""
    others = {it.path for it in other.scripts}
    for it in one.scripts:
        if it.path not in others:
            yield ScriptAtRule(it.path, tuple(it.lines_of_rule(one.rule.name)))
