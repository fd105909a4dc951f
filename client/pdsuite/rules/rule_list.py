"""The rules of the sender by their names in the program, and the refusal of a name that no rule has."""

import tomllib
from collections.abc import Sequence
from dataclasses import dataclass
from fnmatch import fnmatchcase
from pathlib import Path

from pdsuite.output.octets import printable_text
from pdsuite.scripts.defaults import nearest_word

FILE = Path(__file__).with_name("rules.toml")
# A word is a part of so many near names at most.
_NEAR = 4


@dataclass(frozen=True, slots=True)
class SenderRule:
    """A rule of the sender: its name in the program, its words, and the title of its group.

    Words and title are empty where nobody has written any.
    """

    name: str
    words: str = ""
    group: str = ""


def load_sender_rules() -> list[SenderRule]:
    """All rules, in the order of the file."""
    with FILE.open("rb") as file:
        groups = tomllib.load(file)
    return [SenderRule(name, words, group) for group, rules in groups.items() for name, words in rules.items()]


def refusal_of_rule_name_if_unknown(word: str) -> str:
    """The words that refuse a name that no rule has, with those that are near; empty for the name of a rule."""
    names = [it.name for it in load_sender_rules()]
    if word in names:
        return ""
    refusal = f"{printable_text(word)}: there is no such rule"
    match _near_names(word, names):
        case []:
            return refusal
        case [near]:
            return f"{refusal}; the nearest is {near}"
        case several:
            return f"{refusal}; the nearest are {', '.join(several)}"


def refusal_of_rule_pattern_if_unmatched(pattern: str) -> str:
    """The same of a pattern, which may have `*` and `?`; empty where the name of a rule fits it."""
    if any(fnmatchcase(it.name, pattern) for it in load_sender_rules()):
        return ""
    return refusal_of_rule_name_if_unknown(pattern)


def _near_names(word: str, names: Sequence[str]) -> list[str]:
    """The first names of which a word is a part, or else the one that is spelt nearly so, if there is one."""
    parts = [it for it in names if word and word.lower() in it]
    nearest = None if parts else nearest_word(word, names)
    return parts[:_NEAR] if nearest is None else [nearest]
