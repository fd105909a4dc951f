"""The definitions of specs/ that a refused contract cites, also through others, each with its place.

The kit names a line of a function. The contract stands below the function's head, a clause on each line, and the
file's lines `ghost use` say which definitions it names.
"""
from __future__ import annotations

import re
from collections.abc import Iterable, Iterator
from dataclasses import dataclass
from itertools import islice
from pathlib import Path

from changed_rules import (
    Key,
    SpecRule,
    spec_file_names_and_texts,
    own_and_imported_definitions_by_word,
    definitions_named_by,
    rules_in,
)

HEAD = re.compile(r"\s*(?:pub(?:\([^)]*\))? )?(?:(?:final|const|unsafe) )*fn (?P<name>\w+)[<(]")
CLAUSE = re.compile(r"\s+(?:requires|ensures)\b")
USE = re.compile(r"^\s*ghost (use .*)$", re.MULTILINE)
# The message about a contract that isn't proved.
REFUSED = re.compile(r"(?P<path>\S+\.rt):(?P<line>\d+):\d+: it is not proved ")
# So many definitions are named.
MOST = 12


@dataclass(frozen=True)
class Contract:
    """The contract of a function: its clauses, and the line of the first one."""

    function: str
    line: int
    clauses: tuple[str, ...]


def find_contract_of_function_around_line(text: str, line: int) -> Contract | None:
    """The contract of the function in which a line stands, if it has one.

    >>> text = "fn f(a: u8)\\n    requires { a < 2 }\\n    ensures { g a }\\n{\\n    a\\n}\\n\\nfn h() {\\n}\\n"
    >>> find_contract_of_function_around_line(text, 5)
    Contract(function='f', line=2, clauses=('requires { a < 2 }', 'ensures { g a }'))
    >>> find_contract_of_function_around_line(text, 1) == find_contract_of_function_around_line(text, 5)
    True
    >>> find_contract_of_function_around_line(text, 9)
    """
    lines = text.split("\n")
    heads = [(number, found["name"]) for number, it in enumerate(lines[:line]) if (found := HEAD.match(it))]
    if not heads:
        return None
    head, name = heads[-1]
    clauses = []
    for number, it in enumerate(lines[head:], head + 1):
        if CLAUSE.match(it):
            clauses.append((number, it.strip()))
        elif it.endswith("{"):
            break
    return Contract(name, clauses[0][0], tuple(it for _, it in clauses)) if clauses else None


class Definitions:
    """The definitions of crates, and what each of them names."""

    def __init__(self, folders: list[Path]) -> None:
        self._rules: dict[Key, SpecRule] = {}
        self._named: dict[Key, set[Key]] = {}
        for folder in folders:
            for file, text in spec_file_names_and_texts(folder):
                rules = list(rules_in(folder.name, file, text))
                names = own_and_imported_definitions_by_word(folder.name, file, text, {it.name for it in rules})
                self._rules.update((it.key, it) for it in rules)
                self._named.update((it.key, definitions_named_by(it, names)) for it in rules)

    def cited_by_contract_transitively(self, contract: Contract, text: str) -> Iterator[SpecRule]:
        """The definitions that a contract of a file with this text names, then those that these name, and so on."""
        names = own_and_imported_definitions_by_word("", "", "\n".join(USE.findall(text)), set())
        level = definitions_named_by(SpecRule("", "", "", 0, " ".join(contract.clauses)), names)
        seen: set[Key] = set()
        while level:
            seen |= level
            found = [self._rules[it] for it in sorted(level) if it in self._rules]
            yield from found
            level = {below for it in found for below in self._named[it.key]} - seen


def add_contracts_to_errors(errors: Iterable[str], definitions: Definitions, top: Path) -> Iterator[str]:
    """Errors, and below those of a function its contract; a definition's place is shown as one below this folder."""
    last: list[str] = []
    for error in errors:
        found = REFUSED.match(error)
        if found or not error.startswith(("fn ", " ")):
            now = (
                list(
                    render_contract_around_line_with_citations(
                        Path(found["path"]), int(found["line"]), definitions, top
                    )
                )
                if found
                else []
            )
            if now != last:
                yield from last
                last = now
        yield error
    yield from last


def render_contract_around_line_with_citations(
    file: Path, line: int, definitions: Definitions, top: Path
) -> Iterator[str]:
    """The lines about the contract of the function at a line of a file."""
    text = file.read_text(encoding="utf-8", errors="replace")
    contract = find_contract_of_function_around_line(text, line)
    if contract is None:
        return
    yield f"  the contract of {contract.function}:"
    yield from (f"    {it}" for it in contract.clauses)
    cited = [
        f"    {it.name} ({top / it.place})"
        for it in islice(definitions.cited_by_contract_transitively(contract, text), MOST)
    ]
    if cited:
        yield "  cites"
        yield from cited
