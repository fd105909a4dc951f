"""How scripts are put into batches for the program, and those cut into pieces."""

from collections.abc import Iterable, Sequence
from dataclasses import dataclass
from itertools import islice
from typing import TypeVar

from pdsuite.programs.verdict import Row
from pdsuite.run.outcomes import ScriptOutcome
from pdsuite.scripts.expectation import Expectation
from pdsuite.scripts.settings import Settings

BATCH_SIZE = 1_024
PIECE_SIZE = 64

T = TypeVar("T")


@dataclass(slots=True)
class SuiteScript:
    """A script to run: its place in the order of paths, its file, its settings, and why it can't be run.

    Of one without a file `held` has the octets.
    """

    index: int
    path: str
    settings: Settings
    fault: str = ""
    is_strict: bool = False  # whether a warning makes it fail
    expected: Expectation | None = None  # the row that it is known to have
    held: bytes | None = None


def make_outcome_with_row_line(script: SuiteScript, row: Row, line: bytes | None = None) -> ScriptOutcome:
    """The outcome of a script, whose text has this line where the row names one."""
    return ScriptOutcome(script.path, script.settings, row, line, is_strict=script.is_strict, expected=script.expected)


Piece = tuple[SuiteScript, ...]


@dataclass(frozen=True)
class Batch:
    """Scripts with equal settings for one run of the program, in pieces to be settled one after another."""

    settings: Settings
    pieces: tuple[Piece, ...]


def batch_scripts_by_equal_settings(scripts: Iterable[SuiteScript]) -> list[Batch]:
    """The batches of all scripts: groups of equal settings in the order of their first scripts."""
    groups: dict[Settings, list[SuiteScript]] = {}
    for script in scripts:
        groups.setdefault(script.settings, []).append(script)
    return [
        Batch(settings, tuple(split_into_chunks_of_size(part, PIECE_SIZE)))
        for settings, group in groups.items()
        for part in split_into_chunks_of_size(group, BATCH_SIZE)
    ]


def split_into_chunks_of_size(items: Sequence[T], size: int) -> list[tuple[T, ...]]:
    """The items in parts of so many, the last one with what is left."""
    rest = iter(items)
    parts = []
    while part := tuple(islice(rest, size)):
        parts.append(part)
    return parts
