"""The answers of the programs to the rows that have answers, and which of these differ."""

from collections.abc import Iterator, Sequence
from dataclasses import dataclass
from pathlib import Path
from typing import Any, Optional

from harness.calls import CallSteps
from harness.compare import RowAnswer, RowCase, output_as_story_lines
from harness.kinds import KINDS
from harness.recordings import RECORDS
from harness.tables import PROGRAM, Table, RowError, read_tables

Answers = list[Optional[RowAnswer]]
# The programs in which the sender runs.
SENDER_PROGRAMS = (PROGRAM, RECORDS)


@dataclass(frozen=True)
class AnsweredTable:
    """A table whose rows have answers, and its cases."""

    file: Path
    table: Table
    cases: list[RowCase[Any]]

    def answer_cases(self) -> CallSteps[list[Answers]]:
        """The answers to the checks of each case."""
        answer = KINDS[self.table.kind].answer
        assert answer is not None
        answers = iter((yield from answer([it for case in self.cases for it in case.checks])))
        return [[next(answers) for _ in case.checks] for case in self.cases]


def answered_tables_in(file: Path) -> Iterator[AnsweredTable]:
    """The tables of a file whose rows have answers; what can't be read is left to tests/run."""
    try:
        for table in read_tables(file):
            if table.kind in KINDS and KINDS[table.kind].answer and table.program in SENDER_PROGRAMS:
                yield AnsweredTable(file, table, list(KINDS[table.kind].read(table)))
    except RowError:
        return


def first_differing_wanted_and_given_answer(
    case: RowCase[Any], answers: Sequence[Optional[RowAnswer]]
) -> Optional[tuple[RowAnswer, RowAnswer]]:
    """The wanted answer of a case and the given one, of its first check where they differ."""
    each = ((it.wanted, answer) for it, answer in zip(case.checks, answers))
    return next(((wanted, answer) for wanted, answer in each if answer is not None and answer != wanted), None)


def answer_on_one_line(answer: RowAnswer) -> str:
    """An answer on one line."""
    return answer if isinstance(answer, str) else " ".join(output_as_story_lines(answer))
