"""Which rules of the sender a change affects, by what changed in the sources: definitions, code, and defaults.

A definition or an item of code affects the rules that it states: a function by its contract. If it states none, as one
that chooses among rules, those rules count that stand in what changed of it; if there are none, those that it puts
out; and last those of the few functions that use it. A default affects the rules that are stated by what consults the
setting.
"""
from __future__ import annotations

import re
from collections.abc import Iterator
from dataclasses import dataclass
from itertools import chain
from pathlib import Path

from affected_defaults import changed_defaults
from affected_sections import IDENTIFIER, MOST_USERS, SourceItem
from changed_rules import LAWS, Key
from rule_sources import CodeKey, Rules, RuleSources, is_type_or_law, read_rule_sources, read_rule_table, union

# The code of laws, which does nothing.
LAW_CODE = "src/laws.rt"
# From a helper without a rule, so many calls lead up to those that have one.
MOST_CALLS = 3
VARIANT = re.compile(r"\b(\w+)::(\w+)")
CALL = re.compile(r"\b(\w+)\(")


@dataclass(frozen=True)
class AffectedRules:
    """The affected rules by their names, each with what changed; and what changed and affects none."""

    rules: dict[str, list[str]]
    others: list[str]


class ChangedSources:
    """The sources of a sender on one side of a change, beside those on the other side."""

    def __init__(self, side: RuleSources, other: RuleSources) -> None:
        self._side = side
        self._other = other

    def changed_items_with_rules(self) -> Iterator[tuple[SourceItem, Rules]]:
        """The definitions and items of code of this side that aren't the same on the other one, each with its rules."""
        for key, item in self._side.sources.definitions.items():
            if (text := _changed_text(item, self._other.sources.definitions.get(key))) and not LAWS.search(key[1]):
                yield item, Rules() if is_type_or_law(key) else self._rules_of_definition(key, text)
        for place, item in self._side.sources.code.items():
            if (text := _changed_text(item, self._other.sources.code.get(place))) and place[1] != LAW_CODE:
                yield item, self._rules_of_code(place, item, text)

    def rules_that_consult_setting(self, key: str) -> Rules:
        """The rules that are stated by definitions which read a setting, or what a connection keeps of it."""
        field = re.compile(rf"\.{key}\b")
        found = self._side.sources.definitions.items()
        return union(self._side.stated.get(it, Rules()) for it, item in found if field.search(item.text))

    def _rules_of_definition(self, key: Key, text: str) -> Rules:
        words = set(IDENTIFIER.findall(text))
        named = (it for it in self._side.sources.definitions[key].names if it[2] in words)
        return (
            self._side.stated.get(key, Rules())
            or union(self._side.stated.get(it, Rules()) for it in named)
            or self._side.put_out.get(key, Rules())
        )

    def _rules_of_code(self, place: CodeKey, item: SourceItem, text: str) -> Rules:
        return (
            self._side.stated_by_code.get(place, Rules())
            or self._side.rules_of_contract(item)
            or self._rules_named_in(text)
            or self._side.rules_put_out_by_contract(item)
            or self._rules_of_users(item, MOST_CALLS)
        )

    def _rules_named_in(self, text: str) -> Rules:
        """The rules whose variants stand in lines of code, and those of the functions that are called there."""
        called = set(CALL.findall(text))
        functions = (it for it in self._side.sources.code.values() if it.name in called)
        variants = (self._side.by_variant.get(it, Rules()) for it in VARIANT.findall(text))
        return union(variants) | union(map(self._side.rules_of_contract, functions))

    def _rules_of_users(self, item: SourceItem, calls: int) -> Rules:
        """The rules of the functions that name an item of code, or of those that name these; none if they are many."""
        word = re.compile(rf"\b{item.name}\b")
        users = [it for it in self._side.sources.code.values() if it.name != item.name and word.search(it.text)]
        if not calls or len(users) > MOST_USERS and not item.is_constant:
            return Rules()
        return union(self._side.rules_of_contract(it) or self._rules_of_users(it, calls - 1) for it in users)


def _changed_text(item: SourceItem, other: SourceItem | None) -> str:
    """The lines of an item that differ from another state of it; of an only line, the words that differ."""
    if other is not None and other.text == item.text:
        return ""
    one, two = (set() if it is None else set(it.text.split("\n")) for it in (item, other))
    if len(one) == 1 and len(two) == 1:
        one, two = (set(IDENTIFIER.findall(next(iter(it)))) for it in (one, two))
    return "\n".join(sorted(one ^ two)) or item.name


def affected_rules(before: Path, after: Path) -> AffectedRules:
    """The rules that a change from one tree's sender to another's affects."""
    table = read_rule_table()
    old, new = (read_rule_sources(it, table) for it in (before, after))
    sides = (ChangedSources(new, old), ChangedSources(old, new))
    names: dict[tuple[str, str], str] = {}
    found: dict[str, Rules] = {}
    for item, rules in chain.from_iterable(it.changed_items_with_rules() for it in sides):
        # What changed is named once, where it is after the change.
        name = names.setdefault((item.name, item.place.partition(":")[0]), f"{item.name} ({item.place})")
        found[name] = found.get(name, Rules()) | rules
    for it in changed_defaults(before, after):
        name = f"the default of {it.key} ({it.place}), {it.before} before and {it.after} after"
        found[name] = union(side.rules_that_consult_setting(it.key) for side in sides)
    affected = sorted(union(found.values()))
    by_rule = {rule: [name for name, rules in found.items() if rule in rules] for rule in affected}
    return AffectedRules(by_rule, [name for name, rules in found.items() if not rules])
