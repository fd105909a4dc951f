"""The mutants of the sender, each with the rules that it breaks: those of its crates that change code.

They stand in the files `contracts.mutants` and `must-fail/*.edit` of the crates that are the sender. A mutant names
rules by the names that client/pdsuite/rules/rules.toml lists; those of edits stand in tools/edit_rules.toml.
"""
from __future__ import annotations

import tomllib
from collections.abc import Iterator, Mapping, Set
from dataclasses import dataclass
from pathlib import Path

from mutant_files import Mutant, MutantError, TextChange, parse_mutants_of_text, read_mutants_file

CRATES = ("pd_board", "pd_recover", "pd_timer", "pd_host")
RULES = "client/pdsuite/rules/rules.toml"
CODE = "src/"
# The rules of edits, which have no line of their own for them.
EDIT_RULES = "tools/edit_rules.toml"


@dataclass(frozen=True)
class SenderMutant:
    """A mutant of the sender: its crate and name, its changes by paths below the top, and the rules that it breaks."""

    name: str
    mutant: Mutant

    @property
    def rules(self) -> tuple[str, ...]:
        return self.mutant.rules or ()

    @property
    def words(self) -> str:
        """The mistake in a line: each change with its file, and blanks as one."""
        each = (f"{it.file}: {_in_one_line(it.old)} -> {_in_one_line(it.new)}" for it in self.mutant.changes)
        return "; ".join(each)


def _in_one_line(text: str) -> str:
    return " ".join(text.split()) or "nothing"


def read_sender_mutants(top: Path) -> list[SenderMutant]:
    """The mutants of the sender in a tree that change nothing but code; one has to name its rules, or `none`."""
    known = listed_rule_names(top)
    edit_rules = rules_of_edits(top)
    found = [it for crate in CRATES for it in _mutants_of_crate(top, crate, edit_rules)]
    for it in found:
        refuse_missing_or_unknown_rules(it, known)
    return found


def refuse_missing_or_unknown_rules(it: SenderMutant, known: Set[str]) -> None:
    if it.mutant.rules is None:
        raise MutantError(
            f"{it.name} names no rule: it needs a line 'rule:', before 'file:', or a line in {EDIT_RULES}"
        )
    for name in it.mutant.rules:
        if name not in known:
            raise MutantError(f"{it.name}: there is no rule '{name}' in {RULES}")


def listed_rule_names(top: Path) -> frozenset[str]:
    """The names of all rules that the program can name."""
    try:
        groups = tomllib.loads((top / RULES).read_text(encoding="utf-8"))
    except (OSError, ValueError) as error:
        raise MutantError(f"{RULES}: {error}") from None
    return frozenset(name for group in groups.values() for name in group)


def rules_of_edits(top: Path) -> dict[str, tuple[str, ...]]:
    """The rules that edits break, by crate and name; none where the tree has no such file."""
    file = top / EDIT_RULES
    try:
        listed = tomllib.loads(file.read_text(encoding="utf-8")) if file.is_file() else {}
    except (OSError, ValueError) as error:
        raise MutantError(f"{EDIT_RULES}: {error}") from None
    return {name: tuple(rules) for name, rules in listed.items()}


def _mutants_of_crate(top: Path, crate: str, edit_rules: Mapping[str, tuple[str, ...]]) -> Iterator[SenderMutant]:
    folder = top / "crates" / crate
    file = folder / "contracts.mutants"
    edits = sorted(folder.glob("must-fail/*.edit"))
    mutants = [*(read_mutants_file(file) if file.is_file() else ()), *map(_mutant_of_edit_file, edits)]
    for it in mutants:
        if all(change.file.startswith(CODE) for change in it.changes):
            below = [TextChange(f"crates/{crate}/{one.file}", one.old, one.new) for one in it.changes]
            name = f"{crate}/{it.name}"
            rules = edit_rules.get(name) if it.rules is None else it.rules
            yield SenderMutant(name, Mutant(it.name, changes=below, rules=rules))


def _mutant_of_edit_file(path: Path) -> Mutant:
    """The mutant that a file of its own has, named by the file."""
    try:
        (mutant,) = parse_mutants_of_text(f"# {path.stem}\n{path.read_text(encoding='utf-8')}")
    except MutantError as why:
        raise MutantError(f"{path}: {why}") from None
    return mutant
