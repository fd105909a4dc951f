"""Tables of refusals: arguments and lines that are refused, and settings."""

from collections.abc import Iterator
from dataclasses import replace

from harness.calls import ProgramOutput
from harness.compare import EMPTY_REPORT, RowCase, TableKind, ProgramRun, read_case, run_answers, check_runs
from harness.tables import PROGRAM, CaseRow, Table, RowError, parse_octets, split_at_mark

# The answer of a row to a setting that is accepted, and to a line that is no command, which ends the run.
ACCEPTED = "ok"
NO_COMMAND = "15 BadCommand"
SET = "set "


def setting_runs_by_command_and_option(row: CaseRow, answer: str, setting: str) -> Iterator[ProgramRun]:
    """A setting `KEY VALUE`, which is refused so or accepted: by a command, and by the option `--settings`."""
    key, value = split_at_mark(setting, " ", "a setting has a value")
    by_command = by_option = EMPTY_REPORT
    if answer != ACCEPTED:
        by_command = replace(EMPTY_REPORT, output=f"refused {answer}\n".encode() + EMPTY_REPORT.output)
        by_option = ProgramOutput(b"", f"pdregress: {answer}\n".encode(), 2)
    yield ProgramRun(row, PROGRAM, (), f"set {setting}\n".encode(), by_command)
    yield ProgramRun(row, PROGRAM, (b"--settings", f"{key} = {value}".encode()), b"", by_option)


def read_refusal_row(row: CaseRow) -> Iterator[ProgramRun]:
    """A row `ANSWER | $ ARGUMENTS` or `ANSWER | < LINE`: the answer to arguments, or to a line of the input."""
    answer, text = split_at_mark(row.text, " | ", "a row has an answer and a |")
    mark, _, rest = text.partition(" ")
    if mark == "$":
        arguments = tuple(it.encode() for it in rest.split(" "))
        wanted = ProgramOutput(b"", answer.encode() + b"\n", 2)
        yield ProgramRun(row, PROGRAM, arguments, b"add a 0\n", wanted, is_refusal=True)
    elif mark == "<" and answer == NO_COMMAND:
        wanted = replace(EMPTY_REPORT, errors=f"pdregress: {answer}\n".encode(), status=2)
        yield ProgramRun(row, PROGRAM, (), b"show\n" + parse_octets(rest) + b"\nshow\n", wanted)
    elif mark == "<" and rest.startswith(SET):
        yield from setting_runs_by_command_and_option(row, answer, rest.removeprefix(SET))
    else:
        raise RowError(f"a refusal is of `$ ARGUMENTS`, `< set KEY VALUE`, or with {NO_COMMAND} any `< LINE`")


def read_refusals(table: Table) -> Iterator[RowCase[ProgramRun]]:
    """A case for each row."""
    for row in table.rows:
        yield read_case(row, lambda: read_refusal_row(row))


REFUSALS = TableKind(read_refusals, check_runs, answer=run_answers)
