"""Tables of cuts: a script or an input that grows octet by octet, and the answer to it at each."""

from collections.abc import Iterator, Sequence
from dataclasses import dataclass, replace
from typing import Optional, Union

from harness.calls import CallSteps, ProgramOutput
from harness.compare import (
    RowAnswer,
    RowCase,
    RowResult,
    TableKind,
    ProgramRun,
    ExpectedScript,
    read_case,
    report_of_verdicts,
    run_answers,
)
from harness.compare import script_answers, check_runs, check_scripts, verdict_with_known_class_or_raise
from harness.tables import PROGRAM, CaseRow, Table, parse_octets, split_at_mark

# The first octets of an input; no script has them.
INPUT = b"add "
CutCheck = Union[ExpectedScript, ProgramRun]


@dataclass
class GrowingInput:
    """The octets so far, of an input or of a script."""

    octets: bytes = b""

    def grow_by_row_yielding_check_at_each_octet(self, row: CaseRow) -> Iterator[CutCheck]:
        """A row `ANSWER | PIECE`: the answer where the text ends at one of the octets of the piece."""
        answer, piece = split_at_mark(row.text, " | ", "a row has an answer and a |")
        for octet in parse_octets(piece):
            self.octets += bytes([octet])
            part = replace(row, part=f", at {len(self.octets)}")
            yield self.check_of_cut_by_program_or_verdict(part, answer)

    def check_of_cut_by_program_or_verdict(self, row: CaseRow, answer: str) -> CutCheck:
        """The check of the octets so far: an input, with a fault or the verdict of its only script `a`, or a script."""
        if not self.octets.startswith(INPUT[: len(self.octets)]):
            return ExpectedScript(row, "", self.octets, verdict_with_known_class_or_raise(answer))
        if answer[:1].isdigit():
            return ProgramRun(row, PROGRAM, (), self.octets, ProgramOutput(b"", f"pdregress: {answer}\n".encode(), 2))
        return ProgramRun(
            row, PROGRAM, (), self.octets, report_of_verdicts({"a": verdict_with_known_class_or_raise(answer)})
        )


def read_cuts(table: Table) -> Iterator[RowCase[CutCheck]]:
    """A script or an input, a piece of it a row."""
    growing = GrowingInput()
    for row in table.rows:
        yield read_case(row, lambda: growing.grow_by_row_yielding_check_at_each_octet(row))


def check_cuts(checks: Sequence[CutCheck]) -> CallSteps[list[RowResult]]:
    """Compares the answers to scripts, or to inputs."""
    runs = [it for it in checks if isinstance(it, ProgramRun)]
    return (
        yield from (
            check_runs(runs) if runs else check_scripts([it for it in checks if isinstance(it, ExpectedScript)])
        )
    )


def cut_answers(checks: Sequence[CutCheck]) -> CallSteps[list[Optional[RowAnswer]]]:
    """The answer to each script, or to each input."""
    runs = [it for it in checks if isinstance(it, ProgramRun)]
    return (
        yield from (
            run_answers(runs) if runs else script_answers([it for it in checks if isinstance(it, ExpectedScript)])
        )
    )


CUTS = TableKind(read_cuts, check_cuts, answer=cut_answers)
