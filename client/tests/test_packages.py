"""The packages of the client: each knows only those below it."""

import ast
from collections.abc import Iterator
from pathlib import Path

import pytest

from tests.helpers import TOP

CLIENT = TOP / "client/pdsuite"
# The lowest first. A module beside the packages knows none of them but the first, and main.py knows all.
ORDER = (
    *("output", "scripts", "packetdrill", "programs", "imports", "run", "compare", "search", "diagram", "reports"),
    *("rules", "page", "measure", "watch", "lsp", "commands"),
)


def known_to(module: Path) -> Iterator[str]:
    """The packages of the client that a module imports from."""
    for node in ast.walk(ast.parse(module.read_text())):
        if isinstance(node, ast.ImportFrom) and node.module is not None:
            match node.module.split("."):
                case ["pdsuite", package, *_] if package in ORDER:
                    yield package


def test_each_package_has_its_place() -> None:
    assert {it.parent.name for it in CLIENT.glob("*/__init__.py")} == set(ORDER)


@pytest.mark.parametrize("package", ORDER)
def test_a_package_knows_only_those_below_it(package: str) -> None:
    below = ORDER[: ORDER.index(package) + 1]
    modules = (CLIENT / package).glob("*.py")
    assert {it.name: above for it in modules if (above := set(known_to(it)) - set(below))} == {}


def test_what_stands_beside_the_packages_knows_none_but_the_lowest() -> None:
    beside = (it for it in CLIENT.glob("*.py") if it.name != "main.py")
    assert {it.name: above for it in beside if (above := set(known_to(it)) - {ORDER[0]})} == {}
