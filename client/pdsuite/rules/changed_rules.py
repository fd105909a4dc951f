"""The rules of the sender whose sources changed, each with the scripts that come to it before or after the change."""

from collections.abc import Iterator, Mapping, Sequence

from pdsuite.compare.affected import RulesOfChange
from pdsuite.compare.comparison import ComparedScript, ComparisonKind, SenderResults
from pdsuite.compare.rule_changes import ChangedRule, ChangedRules, ScriptOfChangedRule
from pdsuite.programs.protocol import RulesByLine
from pdsuite.rules.rule_list import load_sender_rules

_KINDS = (ComparisonKind.TURNED, ComparisonKind.OTHERWISE)


def changed_rules_with_scripts(
    affected: RulesOfChange,
    compared: Sequence[ComparedScript],
    before: SenderResults,
    after: SenderResults,
    search_command: str,
) -> ChangedRules:
    """The affected rules, those first of which the most scripts turned, and those last that no script comes to.

    A script counts under each sender that lists its rules, and so also if the other sender ends on it.
    """
    sides = [it.rules for it in (before, after) if it.rules is not None]
    words = {it.name: it.words for it in load_sender_rules()}
    listed = [it for it in words if it in affected.rules] + [it for it in affected.rules if it not in words]
    rules = [
        ChangedRule(it, words.get(it, ""), affected.rules[it], _scripts_at_rule(it, compared, sides)) for it in listed
    ]
    return ChangedRules(tuple(sorted(rules, key=_rank)), affected.others, search_command=search_command)


def _rank(it: ChangedRule) -> tuple[bool, list[int]]:
    return not it.scripts, [-it.count_of(kind) for kind in _KINDS]


def _scripts_at_rule(
    name: str, compared: Sequence[ComparedScript], sides: Sequence[Mapping[int, RulesByLine]]
) -> tuple[ScriptOfChangedRule, ...]:
    """The scripts that come to a rule, those that turned first, and then those that are played otherwise."""
    found = _each_script_at_rule(name, compared, sides)
    return tuple(sorted(found, key=lambda it: [it.kind is not kind for kind in _KINDS]))


def _each_script_at_rule(
    name: str, compared: Sequence[ComparedScript], sides: Sequence[Mapping[int, RulesByLine]]
) -> Iterator[ScriptOfChangedRule]:
    for script in compared:
        each = (_lines_of_rule(name, rules.get(script.index, {})) for rules in sides)
        if lines := next(filter(None, each), ()):
            yield ScriptOfChangedRule(script.path, script.kind, lines)


def _lines_of_rule(name: str, rules: RulesByLine) -> tuple[int, ...]:
    return tuple(line for line, names in rules.items() if name in names)
