"""Whether what docs/PROMISES.md names is there: the public functions, and the mutants that the proofs refuse."""

import re
import sys
from collections.abc import Iterator
from pathlib import Path

from documents.pages import Page

sys.path.insert(0, str(Path(__file__).resolve().parents[2] / "tools"))

from mutant_files import read_crate_mutants  # noqa: E402
from reading_list import (  # noqa: E402
    LISTS,
    UnknownNameError,
    contracts_and_places_they_rest_on,
    read_index_of_names_in_all_crates,
)

FUNCTION = re.compile(r"`(\w+::\w+)`")
MUTANTS = re.compile(r"\bMutants? (?:in )?(.*)$", re.MULTILINE)
NAME = re.compile(r"`([\w-]+)`")


def unknown_functions(page: Page) -> Iterator[str]:
    """A line for each function that the page names and no crate has."""
    known = {name for _, name in read_index_of_names_in_all_crates()}
    for name in sorted(set(FUNCTION.findall(page.text)) - known):
        yield f"{page.name}: {name}: there is no such public function"


def unknown_or_unnamed_mutants(page: Page, files: list[Path]) -> Iterator[str]:
    """A line for each mutant that the page names and no crate has, and for each of the gate that it doesn't name."""
    crates = {path.parts[1] for path in files if path.parts[0] == "crates"}
    named = {name for line in MUTANTS.findall(page.text) for name in NAME.findall(line)} - crates
    tried = {path.stem for path in files if path.suffix == ".edit"}
    others = {it.name for mutants in read_crate_mutants(page.top, "contracts").values() for it in mutants}
    for name in sorted(named - tried - others):
        yield f"{page.name}: {name}: there is no such mutant"
    for name in sorted(tried - named):
        yield f"{page.name} doesn't name the mutant {name}, which the gate tries"


def reading_lists_naming_unknown_functions() -> Iterator[str]:
    """A line for each reading list whose functions or clauses aren't there."""
    index = read_index_of_names_in_all_crates()
    for name, functions in LISTS.items():
        try:
            contracts_and_places_they_rest_on(index, list(functions))
        except UnknownNameError as unknown:
            yield f"{name}: {unknown}"
