"""The page of rules in groups: each with how many scripts come to it and, where it is opened, these by their lines."""

from collections.abc import Iterable, Iterator
from dataclasses import dataclass
from pathlib import Path

from pdsuite.files import write_file_atomically
from pdsuite.output.octets import printable_path
from pdsuite.page.folder import TABLE, prepare_page_folder_or_refuse_foreign_files, remove_stale_pages
from pdsuite.page.render import render_rules_page
from pdsuite.rules.reached_rules import RuleRun, RuleUse
from pdsuite.rules.rule_list import SenderRule

# The title of the rules that a script comes to and the list lacks.
_OTHERS = "Other rules"


@dataclass(frozen=True, slots=True)
class RuleSection:
    """A rule, and the scripts that come to it: the path of each, and the lines of its events that do."""

    rule: SenderRule
    scripts: tuple[tuple[str, str], ...]


@dataclass(frozen=True, slots=True)
class RuleGroup:
    """Rules of a kind below a title."""

    title: str
    rules: tuple[RuleSection, ...]


class RulesPage:
    """The page in a folder."""

    def __init__(self, folder: Path) -> None:
        prepare_page_folder_or_refuse_foreign_files(folder)
        self._folder = folder

    def write_page_and_remove_stale(self, uses: Iterable[RuleUse], run: RuleRun, is_unproved: bool) -> None:
        """Writes the page."""
        groups = tuple(_rule_groups_in_order_of_list(uses))
        write_file_atomically(self._folder / TABLE, render_rules_page(groups, run, is_unproved))
        remove_stale_pages(self._folder, (), ())


def _rule_groups_in_order_of_list(uses: Iterable[RuleUse]) -> Iterator[RuleGroup]:
    """The groups of rules; those that the list lacks are the last."""
    sections: dict[str, list[RuleSection]] = {}
    for use in uses:
        sections.setdefault(use.rule.group or _OTHERS, []).append(_rule_section(use))
    for title, rules in sections.items():
        yield RuleGroup(title, tuple(rules))


def _rule_section(use: RuleUse) -> RuleSection:
    scripts = ((printable_path(it.path), it.lines_of_rule(use.rule.name)) for it in use.scripts)
    return RuleSection(use.rule, tuple((path, ", ".join(map(str, lines))) for path, lines in scripts))
