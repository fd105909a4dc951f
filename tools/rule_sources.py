"""The definitions and the code of a sender that state its rules, by the rules' names.

A rule that the table names is stated by what the table has for it. Any other rule that the program names by a variant,
as `state_rule_name Listen`, is stated by the definitions that name this variant. Definitions that these name count
for the rule, too, and so on; but not those that state another rule.
"""
from __future__ import annotations

import re
import tomllib
from collections.abc import Iterable, Mapping
from dataclasses import dataclass
from pathlib import Path

from affected_sections import CRATES, IDENTIFIER, SenderSources, SourceItem, read_sender_sources
from changed_rules import Key, rules_in, spec_file_names_and_texts

# Beside the list of rules: what states a rule, each as CRATE::NAME.
TABLE = Path(__file__).resolve().parents[1] / "client/pdsuite/rules/rule_sources.toml"
# The crate whose definitions give the rules their names.
NAMING = "pd_explain"
NAME_OF_VARIANT = re.compile(
    r'^\w+ \(?(?P<word>[A-Z]\w*)[^"=\n]*= codes "(?P<rule>[a-z0-9]+\.[a-z0-9.-]+)"$', re.MULTILINE
)
VARIANTS = re.compile(r"^use Rattle\.[\w.]+\.(\w+)\.TheVariants\.\{([^}]*)\}", re.MULTILINE)
# The type and the name of a variant.
Variant = tuple[str, str]
# The crate, the file, the name and the count of an item of code.
CodeKey = tuple[str, str, str, int]
# The names of rules.
Rules = frozenset[str]


def union(sets: Iterable[Iterable[str]]) -> Rules:
    """All rules of several sets."""
    return Rules().union(*sets)


def variants_by_word(text: str) -> dict[str, Variant]:
    """The variants that a file of definitions imports, by the words that it has for them.

    >>> variants_by_word("use Rattle.a.specs.declared.b.Kind.TheVariants.{One, Two as Other}\\n")
    {'One': ('Kind', 'One'), 'Other': ('Kind', 'Two')}
    """
    found = {}
    for kind, names in VARIANTS.findall(text):
        for name in filter(None, map(str.strip, names.split(","))):
            it, _, other = name.partition(" as ")
            found[other or it] = kind, it
    return found


def rules_by_variant(tree: Path) -> dict[Variant, Rules]:
    """The rules that a tree's program names by a variant."""
    found: dict[Variant, Rules] = {}
    for _, text in spec_file_names_and_texts(tree / "crates" / NAMING):
        variants = variants_by_word(text)
        for it in NAME_OF_VARIANT.finditer(text):
            if it["word"] in variants:
                variant = variants[it["word"]]
                found[variant] = found.get(variant, Rules()) | {it["rule"]}
    return found


def is_type_or_law(key: Key) -> bool:
    """Whether a definition is a type or a law: these have no rule of their own."""
    return key[2][:1].isupper()


def definitions_that_put_out_rules(tree: Path, named: Mapping[Variant, Rules]) -> dict[Key, Rules]:
    """The definitions of a tree's sender that name the variant of a rule, each with its rules."""
    found: dict[Key, Rules] = {}
    for crate in CRATES:
        for file, text in spec_file_names_and_texts(tree / "crates" / crate):
            variants = variants_by_word(text)
            for it in rules_in(crate, file, text):
                words = variants.keys() & set(IDENTIFIER.findall(it.text))
                rules = union(named.get(variants[word], Rules()) for word in words)
                if rules and not is_type_or_law(it.key):
                    found[it.key] = rules
    return found


def read_rule_table(file: Path = TABLE) -> dict[str, list[str]]:
    """The definitions and code that state each rule of the table, each as CRATE::NAME."""
    with file.open("rb") as text:
        return tomllib.load(text)


@dataclass(frozen=True)
class RuleSources:
    """A tree's sender by its rules: those that a definition or an item of code states, or only puts out.

    A definition that names the variant of a rule puts it out, as one that chooses among many rules does.
    """

    sources: SenderSources
    stated: Mapping[Key, Rules]
    stated_by_code: Mapping[CodeKey, Rules]
    put_out: Mapping[Key, Rules]
    by_variant: Mapping[Variant, Rules]

    def rules_of_contract(self, item: SourceItem) -> Rules:
        """The rules that the definitions of a function's contract state."""
        return union(self.stated.get(key, Rules()) for key in item.names)

    def rules_put_out_by_contract(self, item: SourceItem) -> Rules:
        """The rules that these definitions put out."""
        return union(self.put_out.get(key, Rules()) for key in item.names)


def read_rule_sources(tree: Path, table: Mapping[str, Iterable[str]]) -> RuleSources:
    """The rules of a tree's sender by what states them."""
    sources, by_variant = read_sender_sources(tree), rules_by_variant(tree)
    put_out = definitions_that_put_out_rules(tree, by_variant)
    by_name = rules_by_path(table)
    own = {key: rules for key in sources.definitions if (rules := by_name.get(f"{key[0]}::{key[2]}", Rules()))}
    for key, rules in put_out.items():
        if more := rules - table.keys():
            own[key] = own.get(key, Rules()) | more
    code = {key: rules for key in sources.code if (rules := by_name.get(f"{key[0]}::{key[2]}", Rules()))}
    return RuleSources(sources, with_named_definitions(own, sources), code, put_out, by_variant)


def rules_by_path(table: Mapping[str, Iterable[str]]) -> dict[str, Rules]:
    """The rules that each CRATE::NAME of a table states.

    >>> {path: sorted(rules) for path, rules in rules_by_path({"a": ["c::d", "c::e"], "b": ["c::d"]}).items()}
    {'c::d': ['a', 'b'], 'c::e': ['a']}
    """
    found: dict[str, Rules] = {}
    for rule, paths in table.items():
        for path in paths:
            found[path] = found.get(path, Rules()) | {rule}
    return found


def with_named_definitions(own: Mapping[Key, Rules], sources: SenderSources) -> dict[Key, Rules]:
    """The definitions that state rules, and what they name, also through others, unless that has rules of its own."""
    found = dict(own)
    fresh = list(own)
    while fresh:
        key = fresh.pop()
        for named in sources.definitions[key].names & sources.definitions.keys() - own.keys():
            more = found[key] - found.get(named, Rules())
            if more and not is_type_or_law(named):
                found[named] = found.get(named, Rules()) | more
                fresh.append(named)
    return found
