#!/usr/bin/env -S python3 -B
"""Writes the programs' answers into the rows of tests/cases that differ, each with a mark before it.

While its mark stands there a row fails, so that somebody works its answer out by hand. Prints a line for each row that
was changed, and for each that can't be, and `N taken, M not taken` last; the status is 1 where M isn't 0.
"""

import sys
from collections.abc import Iterator, Sequence
from dataclasses import dataclass, field
from pathlib import Path

sys.path.insert(0, str(Path(__file__).resolve().parents[1]))

from harness.answered_tables import (  # noqa: E402
    AnsweredTable,
    Answers,
    answered_tables_in,
    first_differing_wanted_and_given_answer,
)
from harness.calls import CallRunner, ProgramOutput, run_tests_in_step  # noqa: E402
from harness.compare import RowAnswer, cut_for_message  # noqa: E402
from harness.rewrite import (  # noqa: E402
    AcceptError,
    Lines,
    rewrite_table_of_explanations,
    rewrite_story,
    rewrite_verdict,
)
from harness.run_calls import run_calls  # noqa: E402
from harness.run_rows import interrupt_at_sigterm  # noqa: E402
from harness.stories import read_run_stories  # noqa: E402
from harness.tables import MARK, Table  # noqa: E402
from harness.without_pytest import chosen_programs, row_files_in, make_parser  # noqa: E402

BY_HAND = "a row of this kind is changed by hand"
UNANSWERED = "the program came to no end, by this row or by one that is run with it"
# The wanted answer of the row in a line, and the given one.
ChangedAnswers = dict[int, tuple[RowAnswer, RowAnswer]]


@dataclass
class AcceptedRows:
    """The changes of a file: the new lines, the lines of the rows that are changed, and why others aren't."""

    lines: Lines = field(default_factory=dict)
    rows: dict[int, str] = field(default_factory=dict)
    refused: dict[int, str] = field(default_factory=dict)

    def note_new_lines_and_message_of_row(self, row: int, answers: tuple[RowAnswer, RowAnswer], lines: Lines) -> None:
        """Accepts an answer for the row that begins in a line."""
        wanted, answer = answers
        self.lines |= lines
        self.rows[row] = (
            "taken" if isinstance(answer, ProgramOutput) else f"taken: {cut_for_message(answer)}, was {wanted}"
        )


def changed_answers(table: AnsweredTable, answers: Sequence[Answers]) -> ChangedAnswers:
    """The answers that differ, by the lines of their rows."""
    found: ChangedAnswers = {}
    for case, each in zip(table.cases, answers):
        if other := first_differing_wanted_and_given_answer(case, each):
            found.setdefault(case.row.line, other)
    return found


def note_rewrites_or_refusals_of_table(table: Table, changed: ChangedAnswers, accepted: AcceptedRows) -> None:
    """Accepts answers for the rows of a table."""
    if table.kind == "scripts":
        for row in (it for it in table.rows if it.line in changed):
            accepted.note_new_lines_and_message_of_row(
                row.line, changed[row.line], rewrite_verdict(row, str(changed[row.line][1]))
            )
    elif table.kind == "explained":
        lines = rewrite_table_of_explanations(table.rows, {line: str(answer) for line, (_, answer) in changed.items()})
        for line, each in changed.items():
            accepted.note_new_lines_and_message_of_row(line, each, lines)
    elif table.kind == "stories":
        note_rewrites_or_refusals_of_stories(table, changed, accepted)
    else:
        accepted.refused |= dict.fromkeys(changed, BY_HAND)


def note_rewrites_or_refusals_of_stories(table: Table, changed: ChangedAnswers, accepted: AcceptedRows) -> None:
    for story in read_run_stories(table):
        line = story.rows[0].line
        if line in changed:
            wanted, output = changed[line]
            assert isinstance(wanted, ProgramOutput) and isinstance(output, ProgramOutput)
            try:
                accepted.note_new_lines_and_message_of_row(line, changed[line], rewrite_story(story, wanted, output))
            except AcceptError as why:
                accepted.refused[line] = str(why)


def apply_rewrites(text: str, lines: Lines) -> tuple[str, dict[int, int]]:
    """A file with new lines, none of which is a second mark of its row, and the new numbers of the old lines."""
    new: list[str] = []
    places: dict[int, int] = {}
    for number, line in enumerate(text.split("\n"), 1):
        for each in lines.get(number, [line]):
            if not (each.startswith(MARK) and new and new[-1].startswith(MARK)):
                new.append(each)
            if not each.startswith(MARK):
                places.setdefault(number, len(new))
    return "\n".join(new), places


def accept_file(file: Path, tables: Sequence[tuple[AnsweredTable, Sequence[Answers]]]) -> tuple[list[str], list[str]]:
    """Writes answers into a file; the messages of the rows that are changed, and of those that aren't."""
    accepted = AcceptedRows()
    for table, answers in tables:
        note_rewrites_or_refusals_of_table(table.table, changed_answers(table, answers), accepted)
        unanswered = (case.row.line for case, each in zip(table.cases, answers) if None in each)
        accepted.refused |= dict.fromkeys(unanswered, UNANSWERED)
    text, places = apply_rewrites(file.read_bytes().decode(), accepted.lines)
    if accepted.lines:
        file.write_bytes(text.encode())
    name = tables[0][0].table.heading.file
    both = (accepted.rows, {line: f"not taken: {why}" for line, why in accepted.refused.items()})
    rows, refused = ([f"{name}:{places[line]}: {it}" for line, it in sorted(lines.items())] for lines in both)
    return rows, refused


def run_and_accept_files(files: Sequence[Path], runner: CallRunner) -> Iterator[tuple[list[str], list[str]]]:
    """Runs all files at once, and writes the answers into each."""
    tables = [it for file in files for it in answered_tables_in(file)]
    answers = list(run_tests_in_step([it.answer_cases() for it in tables], runner))
    for file in files:
        if of_file := [(it, each) for it, each in zip(tables, answers) if it.file == file]:
            yield accept_file(file, of_file)


def main(arguments: Sequence[str]) -> int:
    options = make_parser(__doc__).parse_args(arguments)
    interrupt_at_sigterm()
    programs = chosen_programs(options)
    files = list(dict.fromkeys(it.absolute() for path in options.paths for it in row_files_in(path)))
    accepted = refused = 0
    for rows, others in run_and_accept_files(files, lambda calls: run_calls(programs.direct, calls)):
        print(*rows, *others, sep="\n", end="\n" if rows or others else "")
        accepted, refused = accepted + len(rows), refused + len(others)
    print(f"{accepted} taken, {refused} not taken")
    return 1 if refused else 0


if __name__ == "__main__":
    sys.exit(main(sys.argv[1:]))
