"""Tables of random rows, drawn when they are run: packets, lists of calls that a model answers, and recoveries."""

import re
from collections.abc import Callable, Iterator, Sequence
from dataclasses import dataclass, replace
from functools import partial

from drawn import boards, books, packets
from drawn.drawing import Amount
from model.rules import RFC6675, RFC9937
from harness.calls import CallSteps, ProgramOutput
from harness.compare import RowCase, RowResult, TableKind, ProgramRun, read_case, check_runs
from harness.recordings import RECORDS
from harness.model_runs import draw_transfers, check_transfers
from harness.tables import TOP, CaseRow, Table, RowError

ROW = re.compile(r"([1-9]\d*) ([a-z0-9 ]+) from (\d+)")
# The recoveries of an algorithm, which the recorder plays.
RECOVERIES = {f"recoveries by {it}": it for it in (RFC6675, RFC9937)}


def wanted_output_of_test_sender(rows: Sequence[str]) -> Iterator[str]:
    """The output of test_sender for rows where none differs."""
    count = 0
    for row in rows:
        kind, _, rest = row.partition(" ")
        if kind == "#":
            yield rest
        elif kind == "==":
            yield f"{count} {rest}, 0 differ"
            count = 0
        elif kind in ("packet", "list"):
            count += 1


def wanted_output_of_test_book(rows: Sequence[str]) -> Iterator[str]:
    """The output of test_book for rows where none differs."""
    yield from (row for row in rows if row.startswith("=="))
    stories = sum(row.startswith("# ") for row in rows)
    calls = sum(not row.startswith(("# ", "==")) for row in rows)
    yield f"{stories} stories, {calls} rows, 0 differ"


@dataclass(frozen=True)
class RowLists:
    """Rows of a test program: its file that has them, what draws them, and its output where none differs."""

    file: str
    drawn: Callable[[int, Amount], Iterator[str]]
    output: Callable[[Sequence[str]], Iterator[str]]


PROGRAMS = {
    "test_sender": {
        "packets": RowLists("random_packets.txt", packets.rows, wanted_output_of_test_sender),
        "short boards": RowLists("random_boards.txt", partial(boards.rows, boards.SHORT), wanted_output_of_test_sender),
        "long boards": RowLists("random_boards.txt", partial(boards.rows, boards.LONG), wanted_output_of_test_sender),
    },
    "test_book": {"books": RowLists("random_lists.txt", books.rows, wanted_output_of_test_book)},
}
DRAWS = {RECORDS: list(RECOVERIES), **{name: list(it) for name, it in PROGRAMS.items()}}


@dataclass(frozen=True)
class Draw:
    """A draw of a row for a program: rows of one kind, from a seed."""

    row: CaseRow
    program: str
    kind: str
    amount: Amount
    seed: int

    def program_run(self) -> ProgramRun:
        """The run of the program's own test, with the rows that are drawn in place of those that are stored."""
        crate, lists = TOP / "crates" / self.program, PROGRAMS[self.program][self.kind]
        rows = list(lists.drawn(self.seed, self.amount))
        files = {it.name: it.read_bytes() for it in (crate / "data").iterdir()}
        stored = files[lists.file].decode().splitlines()
        wanted = stdout_for_drawn_in_place_of_stored_rows(
            (crate / "stdout").read_bytes(), encode_lines(lists.output(stored)), encode_lines(lists.output(rows))
        )
        given = (crate / "stdin").read_bytes()
        with_rows = tuple({**files, lists.file: encode_lines(rows)}.items())
        return ProgramRun(self.row, self.program, (), given, ProgramOutput(wanted, b"", 0), files=with_rows)


def stdout_for_drawn_in_place_of_stored_rows(output: bytes, stored: bytes, drawn: bytes) -> bytes:
    """The wanted output for the rows that are drawn, by the one for those that are stored."""
    if output.count(stored) != 1:
        raise RowError("stdout doesn't have the output that follows from the stored rows")
    return output.replace(stored, drawn)


def encode_lines(lines: Iterator[str] | Sequence[str]) -> bytes:
    return "".join(f"{line}\n" for line in lines).encode()


def read_draw(table: Table, row: CaseRow) -> Draw:
    """The draw of a row, unless a run chooses otherwise."""
    found = ROW.fullmatch(row.text)
    if not found or found[2] not in DRAWS.get(table.program, ()):
        raise RowError("a row is `COUNT WHAT from SEED`, and WHAT is drawn for the program")
    draw_options = table.draw_options
    seed = int(found[3]) if draw_options.seed is None else draw_options.seed
    more = f": {draw_options.rows} rows" if draw_options.rows else ""
    row = replace(row, text=f"{found[1]} {found[2]} from {seed}{more}")
    return Draw(row, table.program, found[2], Amount(int(found[1]), draw_options.rows), seed)


def read_random_rows(table: Table) -> Iterator[RowCase[Draw]]:
    """A case for each row."""
    for row in table.rows:
        yield read_case(row, lambda: [read_draw(table, row)], re.sub(r"\W+", "-", row.text))


def check_random_rows(draws: Sequence[Draw]) -> CallSteps[list[RowResult]]:
    """Draws the rows of a table, and compares the outputs."""
    if any(it.program == RECORDS for it in draws):
        each = [(it.amount.rows or it.amount.lists, RECOVERIES[it.kind], it.seed) for it in draws]
        return (yield from check_transfers([list(draw_transfers(*it)) for it in each]))
    return (yield from check_runs([it.program_run() for it in draws]))


RANDOM_ROWS = TableKind(read_random_rows, check_random_rows)
