"""The runs that a mutant names: `story TITLE` or `part WORD` of a desk, or `run NAME`, a run of pdregress."""

from collections.abc import Iterator

from harness.calls import ProgramOutput
from harness.compare import RowCase, ProgramRun
from harness.stories import slug, read_stories, read_titled_stories
from harness.tables import CASES, TOP, CaseRow, RowError, read_tables

DESK = "test_desk"
# The parts of test_desk after the stories: the argument of each, which has a line of the output.
PARTS = ("overlap", "schedules", "orders")


def cases_of_all_desk_parts() -> Iterator[RowCase[ProgramRun]]:
    """Each further part of test_desk as a run without a story."""
    lines = (TOP / "crates" / DESK / "stdout").read_bytes().splitlines(keepends=True)[1:]
    for part, line in zip(PARTS, lines, strict=True):
        row = CaseRow(f"crates/{DESK}/stdout", 1, part)
        yield RowCase(part, row, (ProgramRun(row, DESK, (part.encode(),), b"", ProgramOutput(line, b"", 0)),))


def cases_of_story_run_or_part(kind: str) -> list[RowCase[ProgramRun]]:
    """The cases among which a name of this kind is looked for."""
    match kind:
        case "story":
            return [case for table in read_tables(CASES / "desk" / "desk.cases") for case in read_titled_stories(table)]
        case "run":
            return [case for table in read_tables(CASES / "runs" / "words.cases") for case in read_stories(table)]
        case "part":
            return list(cases_of_all_desk_parts())
        case _:
            return []


def runs_named(test: str) -> list[ProgramRun]:
    """The runs of this name; of a story that is run with workers these runs alone."""
    kind, _, title = test.partition(" ")
    name = slug(title)
    cases = [case for case in cases_of_story_run_or_part(kind) if slug(case.row.text) == name]
    if not cases:
        raise RowError(f"there is no {test}")
    with_workers = [case for case in cases if case.name != name]
    return [run for case in with_workers or cases for run in case.checks]
