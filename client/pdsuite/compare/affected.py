"""The effects of a changed sender on its tree: rows of tests/cases that say otherwise now, paragraphs, and rules."""

import json
import os
import subprocess
import sys
from collections.abc import Callable, Iterator, Mapping, Sequence
from concurrent.futures import ThreadPoolExecutor
from dataclasses import dataclass, replace
from pathlib import Path
from typing import Any

from pdsuite.compare.senders import Sender
from pdsuite.faults import Fault
from pdsuite.output.octets import printable_octets, printable_path
from pdsuite.programs.batch_protocol import (
    ProgramAnswer,
    Case,
    ProcessOutput,
    take_whole_length_prefixed_parts,
    with_length_line,
)
from pdsuite.programs.locate import RECORD, REGRESS, TOP
from pdsuite.programs.program import Program, ProgramEndedError
from pdsuite.programs.unproved_batch import ProgramCases, build_and_run_cases
from pdsuite.signals import Stop

# In a tree that has tests: what says how these are run, and which of them say otherwise.
_TOOL = "tools/affected.py"
_ROWS = "tests/cases"
_LONGEST = 8 << 20


@dataclass(frozen=True)
class AffectedRow:
    """A row that says otherwise now: its file and line, and the title of a run."""

    file: str
    line: int
    title: str


@dataclass(frozen=True)
class Paragraph:
    """A paragraph that may say otherwise now, with the sections and the rules by which it was found.

    Of rules that no paragraph cites a section of, all else is empty.
    """

    page: str
    line: int
    heading: str
    name: str
    sections: tuple[str, ...]
    rules: tuple[str, ...]


@dataclass(frozen=True)
class Affected:
    """The affected rows and paragraphs, and how many rows have no answer.

    Paragraphs are unknown where the sources of the sender before are.
    """

    rows: tuple[AffectedRow, ...]
    unheard: int
    paragraphs: tuple[Paragraph, ...] | None

    @property
    def has_affected_or_unanswered_rows(self) -> bool:
        return bool(self.rows or self.unheard)


@dataclass(frozen=True)
class RowStarts:
    """The rows of a tree as starts of programs, each with the name of its program."""

    tree: Path
    starts: Sequence[tuple[str, Case]]

    def start_cases_of_program(self, program: str) -> tuple[Case, ...]:
        """The starts of a program."""
        return tuple(case for name, case in self.starts if name == program)

    def cases_of_pdregress_and_pdrecord(self, tree: Path) -> list[ProgramCases]:
        """The same, of a tree that has to be built."""
        return [ProgramCases(tree, it, (), self.start_cases_of_program(it)) for it in (REGRESS, RECORD)]


def query_test_row_starts_of_sender(sender: Sender, room: Path) -> RowStarts:
    """The rows of a sender's tree as starts of programs."""
    tree = sender.find_or_check_out_sources(room)
    if tree is None or not (tree / _TOOL).is_file() or not (tree / _ROWS).is_dir():
        raise Fault(f"--affected: {sender} is no tree with {_ROWS} and {_TOOL}")
    return RowStarts(tree, list(_parse_program_names_and_cases(_run_affected_tool(tree, "starts"))))


def _parse_program_names_and_cases(output: bytes) -> Iterator[tuple[str, Case]]:
    """The starts: words, an input, and how much is printed at most."""
    each = take_whole_length_prefixed_parts(bytearray(output))
    for joined, given, room in zip(each, each, each):
        program, *words = joined.decode().split("\0")
        yield program, Case(tuple(words), given, int(room))


def _run_affected_tool(tree: Path, *words: str | Path) -> bytes:
    """Runs the tool of a tree, and answers its output."""
    done = subprocess.run(
        [sys.executable, "-B", tree / _TOOL, *words],
        stdin=subprocess.DEVNULL,
        capture_output=True,
        process_group=0,  # a key of the terminal ends the client alone
    )
    if done.returncode:
        lines = done.stderr.splitlines() or [b"it ended with status %d" % done.returncode]
        raise Fault(f"{printable_path(tree / _TOOL)}: {printable_octets(lines[-1])}")
    return done.stdout


def changed_functions_and_constants_of_trees(before: Path | None, after: Path | None) -> list[dict[str, Any]]:
    """The functions and constants that changed between two trees, with the names in them; none if one isn't known."""
    if before is None or after is None or not (TOP / _TOOL).is_file():
        return []
    changed: list[dict[str, Any]] = json.loads(_run_affected_tool(TOP, "changed", "--before", before, "--after", after))
    return changed


@dataclass(frozen=True)
class RulesOfChange:
    """The rules whose sources changed, each with what changed of them; and what changed and states no rule."""

    rules: Mapping[str, tuple[str, ...]]
    others: tuple[str, ...]


def can_find_affected_rules() -> bool:
    """Whether this is a tree, which has what reads the sources of senders."""
    return (TOP / _TOOL).is_file()


def affected_rules_of_trees(before: Path, after: Path) -> RulesOfChange:
    """The rules whose sources changed between two trees."""
    found = json.loads(_run_affected_tool(TOP, "rules", "--before", before, "--after", after))
    return RulesOfChange({rule: tuple(by) for rule, by in found["rules"].items()}, tuple(found["others"]))


def run_starts_on_programs(programs: dict[str, Path], row_starts: RowStarts, stop: Stop) -> list[ProcessOutput]:
    """Runs the starts on these programs, several at a time, and answers their outputs."""

    def run_start_or_empty_output_on_abort(each: tuple[str, Case]) -> ProcessOutput:
        name, case = each
        try:
            with Program([programs[name], *case.words], stop) as program:
                return program.run_on_input(case.given, _LONGEST)
        except ProgramEndedError:
            return ProcessOutput()

    # One that isn't there has printed nothing.
    there = [each if each[0] in programs else None for each in row_starts.starts]
    with ThreadPoolExecutor(len(os.sched_getaffinity(0))) as pool:
        return list(pool.map(lambda each: run_start_or_empty_output_on_abort(each) if each else ProcessOutput(), there))


def tree_outputs_after_isolated_reruns(
    row_starts: RowStarts,
    answers: Sequence[Sequence[ProgramAnswer]],
    tree: Path,
    stop: Stop,
    note: Callable[[str], None],
) -> list[ProcessOutput]:
    """The outputs of a tree's built programs. A start that another one may have ended is run again, alone."""
    answered = [list(it) for it in answers]
    lost = [[place for place, it in enumerate(each) if it.is_shared] for each in answered]
    if count := sum(map(len, lost)):
        note(f"pdsuite: {count:,} starts on rows are tried again, each by itself")
        cases = [row_starts.start_cases_of_program(it) for it in (REGRESS, RECORD)]
        alone = [
            ProgramCases(tree, name, (), tuple(replace(mine[place], is_alone=True) for place in places))
            for name, mine, places in zip((REGRESS, RECORD), cases, lost)
        ]
        for each, places, again in zip(answered, lost, build_and_run_cases(alone, stop)):
            for place, it in zip(places, again):
                each[place] = it
    by_name = {name: iter(each) for name, each in zip((REGRESS, RECORD), answered)}
    return [next(by_name[name]).raw for name, _ in row_starts.starts]


def find_affected_rows_and_paragraphs(
    row_starts: RowStarts, outputs: Sequence[Sequence[ProcessOutput]], before: Path | None, room: Path
) -> Affected:
    """The affected rows, by the outputs of both senders, and paragraphs, by the sources of the one before, if known."""
    file = room / "answers"
    with file.open("wb") as answers:
        for each in zip(*outputs):
            for it in each:
                answers.writelines(map(with_length_line, (it.output, it.errors, it.status.encode())))
    words: list[str | Path] = [] if before is None else ["--before", before]
    found = json.loads(_run_affected_tool(row_starts.tree, "list", *words, file))
    paragraphs = found["sections"]
    return Affected(
        tuple(AffectedRow(**it) for it in found["rows"]),
        found["unheard"],
        None if paragraphs is None else tuple(map(_paragraph_from_json, paragraphs)),
    )


def _paragraph_from_json(it: dict[str, Any]) -> Paragraph:
    texts = {key: tuple(value) if isinstance(value, list) else value for key, value in it.items()}
    return Paragraph(**texts)
