"""The kinds of tables, and the cases of a file of rows."""

from collections.abc import Iterator, Sequence
from dataclasses import dataclass, replace
from pathlib import Path
from typing import Any

from harness.compare import RowCase, TableKind
from harness.cuts import CUTS
from harness.explanations import BEGINNINGS, EXPLAINED
from harness.random_rows import RANDOM_ROWS
from harness.recordings import RECORDINGS
from harness.refusals import REFUSALS
from harness.scripts import PLACES, SCRIPTS
from harness.stories import STORIES, TITLED_STORIES
from harness.tables import DrawOptions, CaseRow, Table, RowError, path_below_top, read_tables

KINDS: dict[str, TableKind[Any]] = {
    "scripts": SCRIPTS,
    "cuts": CUTS,
    "octets": PLACES,
    "refusals": REFUSALS,
    "stories": STORIES,
    "titled stories": TITLED_STORIES,
    "explained": EXPLAINED,
    "beginnings": BEGINNINGS,
    "recordings": RECORDINGS,
    "random rows": RANDOM_ROWS,
}


@dataclass(frozen=True)
class CaseGroup:
    """The cases of a table, which are checked together, and their programs."""

    name: str
    kind: TableKind[Any]
    programs: tuple[str, ...]
    cases: list[RowCase[Any]]


def error_group(name: str, row: CaseRow, why: str) -> CaseGroup:
    """A group with a case for a text that can't be read."""
    return CaseGroup(name, STORIES, (), [RowCase("unread", row, error=why)])


def mark_message(mark: CaseRow) -> str:
    """The message that a row is marked, and what to do about that."""
    return (
        f"{mark.file}:{mark.line}: this answer was taken from the program: work it out by hand, from docs/SENDER.md "
        f"and docs/SCRIPTS.md, and take away line {mark.line}"
    )


def cases_failing_where_marked(cases: Sequence[RowCase[Any]], marks: Sequence[CaseRow]) -> Iterator[RowCase[Any]]:
    """The cases of a table, of which a marked one fails; so does a mark without a case after it."""
    messages: dict[int, str] = {}
    for mark in marks:
        place = next((at for at, case in enumerate(cases) if case.row.line > mark.line), len(cases))
        messages[place] = mark_message(mark)
    for at, case in enumerate(cases):
        yield replace(case, mark=messages[at]) if at in messages else case
    if len(cases) in messages:
        yield RowCase("marked", marks[-1], error=messages[len(cases)])


def read_group(table: Table) -> CaseGroup:
    """The cases of a table."""
    if table.kind not in KINDS:
        return error_group(table.name, table.heading, f"{table.heading}: there is no such kind")
    kind = KINDS[table.kind]
    try:
        cases = list(cases_failing_where_marked(list(kind.read(table)), table.marks))
        return CaseGroup(table.name, kind, kind.programs or (table.program,), cases)
    except RowError as why:
        return error_group(table.name, table.heading, str(why))


def read_groups(file: Path, draw_options: DrawOptions = DrawOptions()) -> Iterator[CaseGroup]:
    """The cases of a file, by its tables."""
    try:
        yield from (read_group(replace(table, draw_options=draw_options)) for table in read_tables(file))
    except RowError as why:
        yield error_group("file", CaseRow(path_below_top(file), 1, ""), str(why))
