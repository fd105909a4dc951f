#!/usr/bin/env -S python3 -B
"""Runs rows without pytest: prints what fails, and `N passed, M failed` last.

Other tests fail, and so does a run without a row.
"""

import argparse
import sys
from collections.abc import Callable, Iterator, Sequence
from pathlib import Path

sys.path.insert(0, str(Path(__file__).resolve().parents[1]))

from harness.compare import RowResult  # noqa: E402
from harness.kinds import CaseGroup, error_group, read_groups  # noqa: E402
from harness.run_rows import Programs, Selection, check_selection, check_selections_in_step  # noqa: E402
from harness.run_rows import interrupt_at_sigterm, programs_in, proved_programs  # noqa: E402
from harness.tables import DrawOptions, CaseRow, path_below_top  # noqa: E402


def row_files_in(path: Path) -> list[Path]:
    """The files of a path: those of rows that a folder has, or the path itself."""
    return sorted(path.rglob("*.cases")) if path.is_dir() else [path]


def read_groups_in(path: Path, draw_options: DrawOptions) -> Iterator[CaseGroup]:
    """The tables of a path, which is a folder, a file of rows, or a file of tests that need pytest."""
    for file in row_files_in(path):
        if file.suffix == ".cases":
            yield from read_groups(file, draw_options)
        else:
            row = CaseRow(path_below_top(file.absolute()), 1, "")
            yield error_group(file.name, row, "python3-pytest is missing")


def chosen_programs(options: argparse.Namespace) -> Programs:
    if options.programs:
        return programs_in(options.programs.absolute())
    return Programs() if options.unproved else proved_programs()


def check_alone_if_built_else_in_step(selections: Sequence[Selection], programs: Programs) -> Iterator[list[RowResult]]:
    """The results of each group."""
    if programs.are_all_built_for([group for group, _ in selections]):
        return (check_selection(it, programs) for it in selections)
    return check_selections_in_step(selections, programs)


def make_parser(description: str | None) -> argparse.ArgumentParser:
    """The parser of the options that choose programs, and of paths."""
    parser = argparse.ArgumentParser(description=description)
    parser.add_argument("--proved", action="store_true", help="the proved programs alone")
    parser.add_argument("--unproved", action="store_true", help="the sources as they are")
    parser.add_argument("--programs", metavar="FOLDER", type=Path, help="those of a folder, and the sources of others")
    parser.add_argument("paths", metavar="PATH", nargs="+", type=Path)
    return parser


def number_at_least(least: int) -> Callable[[str], int]:
    """A function that reads a number which isn't below this one."""

    def number(text: str) -> int:
        if not text.isascii() or not text.isdigit() or int(text) < least:
            raise argparse.ArgumentTypeError(f"{text}: a number of {least} or more is wanted")
        return int(text)

    return number


def add_draw_options(parser: argparse.ArgumentParser) -> None:
    """Adds the options that choose what is drawn."""
    parser.add_argument(
        "--seed", metavar="N", type=number_at_least(0), help="draws random rows and recoveries from this seed"
    )
    parser.add_argument(
        "--rows", metavar="N", type=number_at_least(1), help="draws so many rows at least, or recoveries, a table"
    )


def main(arguments: Sequence[str]) -> int:
    parser = make_parser(__doc__)
    add_draw_options(parser)
    options = parser.parse_args(arguments)
    interrupt_at_sigterm()
    programs = chosen_programs(options)
    if programs.unbuilt and options.proved:
        print(*(f"FAILED {it}" for it in programs.unbuilt), f"0 passed, {len(programs.unbuilt)} failed", sep="\n")
        return 1
    draw_options = DrawOptions(options.seed, options.rows)
    groups = [group for path in options.paths for group in read_groups_in(path, draw_options)]
    selections: list[Selection] = [(group, group.cases) for group in groups]
    passed = failed = unanswered = 0
    for group, results in zip(groups, check_alone_if_built_else_in_step(selections, programs)):
        for case, it in zip(group.cases, results):
            passed, failed = passed + (it == RowResult()), failed + bool(it.fault)
            if it.fault:
                print(f"FAILED {case.row.file}::{group.name}::{case.name}\n{it.fault}", flush=True)
            elif it.is_unanswered:
                unanswered += 1
                print(f"not run, needs a built program: {case.row.file}::{group.name}::{case.name}")
    if unanswered:
        print(f"{unanswered} rows need a built program")
    failed = failed or int(not any(group.cases for group in groups))
    print(f"{passed} passed, {failed} failed")
    return 1 if failed else 0


if __name__ == "__main__":
    sys.exit(main(sys.argv[1:]))
