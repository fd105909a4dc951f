"""Which rows of tests/cases a changed sender affects: it answers them wrongly, and otherwise than the one before."""

from collections.abc import Iterator, Sequence
from dataclasses import dataclass, replace
from typing import Any

from harness.calls import Outputs, ProgramCall, run_tests_in_step
from harness.answered_tables import AnsweredTable, Answers, answered_tables_in
from harness.compare import RowCase, ProgramRun
from harness.tables import case_files

WORKERS = b"--workers"
# No input that is about the sender has so many octets.
LONG = 200_000


@dataclass(frozen=True)
class ChangedRow:
    """A row that is answered otherwise now: its file and line, and of a run its title."""

    file: str
    line: int
    title: str = ""


def tables_about_sender() -> list[AnsweredTable]:
    """All tables whose rows have answers, without the runs that test nothing of the sender."""
    tables = [it for file in case_files() for it in answered_tables_in(file)]
    return [replace(it, cases=[case for case in it.cases if not is_case_not_about_sender(case)]) for it in tables]


def is_case_not_about_sender(case: RowCase[Any]) -> bool:
    """Whether a case tests nothing of the sender.

    That is a refusal of arguments, a run with workers, which is made without them, too, or a long one, about limits of
    inputs.
    """
    runs = [it for it in case.checks if isinstance(it, ProgramRun)]
    return any(it.is_refusal or WORKERS in it.arguments or len(it.given) > LONG for it in runs)


def calls_of_tables(tables: Sequence[AnsweredTable]) -> list[ProgramCall]:
    """The calls of the programs, in one step."""
    kept: list[ProgramCall] = []

    def keep(calls: Sequence[ProgramCall]) -> Outputs:
        kept.extend(calls)
        return [None] * len(calls)

    list(run_tests_in_step([it.answer_cases() for it in tables], keep))
    return kept


def answers_by_table(tables: Sequence[AnsweredTable], outputs: Outputs) -> Iterator[list[Answers]]:
    """The answers to the cases of each table, by the answers to these calls."""
    each = iter(outputs)
    return run_tests_in_step([it.answer_cases() for it in tables], lambda calls: [next(each) for _ in calls])


def is_affected(case: RowCase[Any], before: Answers, after: Answers) -> bool:
    """Whether the sender after answers a check of a case wrongly, and otherwise than the one before."""
    return any(new is not None and new != it.wanted and new != old for it, old, new in zip(case.checks, before, after))


def affected_rows(tables: Sequence[AnsweredTable], before: Outputs, after: Outputs) -> Iterator[ChangedRow]:
    """The rows that are affected, each once, in the order of files and lines."""
    for table, one, other in zip(tables, answers_by_table(tables, before), answers_by_table(tables, after)):
        seen = set()
        for case, old, new in zip(table.cases, one, other):
            if case.row.line not in seen and is_affected(case, old, new):
                seen.add(case.row.line)
                yield ChangedRow(case.row.file, case.row.line, case.row.text if table.table.kind == "stories" else "")


def count_unanswered_cases(tables: Sequence[AnsweredTable], after: Outputs) -> int:
    """How many cases have a check without an answer."""
    return sum(None in answers for each in answers_by_table(tables, after) for answers in each)
