"""Files of rows: their tables, rows and openings, as tests/README.md says how they are written."""

import re
from collections.abc import Iterator, Mapping
from contextlib import contextmanager
from dataclasses import dataclass, field, replace
from functools import cache
from pathlib import Path

TOP = Path(__file__).resolve().parents[2]
CASES = TOP / "tests" / "cases"
# The openings of this file may be named in all others.
OPENINGS = CASES / "openings.cases"
PROGRAM = "pdregress"
HEADING = re.compile(r"\[([^]]+)\] ([a-z ]+?)(?: of (\w+))?(?: after (\w+))?")
# The kinds that may stand after an opening.
OPENED = ("opening", "scripts", "explained")
# The first octets of a line before a row whose answer was taken from the program.
MARK = "#?"
SHORT = {b"n": b"\n", b"r": b"\r", b"t": b"\t", b"\\": b"\\"}


class RowError(Exception):
    """Why a row isn't written as its table wants it."""


@contextmanager
def add_row_to_errors(row: "CaseRow") -> Iterator[None]:
    """Adds to an error the row that can't be read."""
    try:
        yield
    except RowError as why:
        raise RowError(f"{row}: {why}") from None


@dataclass(frozen=True)
class CaseRow:
    """A line of a file of rows, and of what it stands for the part that is meant: a length or an octet."""

    file: str
    line: int
    text: str
    part: str = ""

    def __str__(self) -> str:
        return f"{self.file}:{self.line}: {self.text}{self.part}"


@dataclass(frozen=True)
class Opening:
    """The text before a script or an input, and the one before the rest of an output."""

    given: bytes = b""
    output: bytes = b""


@dataclass(frozen=True)
class DrawOptions:
    """The options of a run that draws: the seed of each table, and how many rows, at least, or recoveries."""

    seed: int | None = None
    rows: int | None = None


@dataclass(frozen=True)
class Table:
    """A table: its heading, its name and kind, the program that it runs, and its lines, comments among them."""

    heading: CaseRow
    name: str
    kind: str
    program: str = PROGRAM
    opening: str = ""
    before: Opening = Opening()
    openings: Mapping[str, Opening] = field(default_factory=dict)
    lines: list[CaseRow] = field(default_factory=list)
    draw_options: DrawOptions = DrawOptions()

    @property
    def rows(self) -> list[CaseRow]:
        """The lines that are no comments."""
        return [row for row in self.lines if not row.text.startswith("#")]

    @property
    def marks(self) -> list[CaseRow]:
        """The lines that mark the row after them."""
        return [row for row in self.lines if row.text.startswith(MARK)]


def path_below_top(file: Path) -> str:
    """The path of a file below the top of the tree, where it is below that."""
    return str(file.relative_to(TOP) if file.is_relative_to(TOP) else file)


def parse_octets(text: str) -> bytes:
    """The octets that a row writes."""

    def octet(found: re.Match[bytes]) -> bytes:
        escape = found[1]
        if not escape:
            raise RowError("there is no such escape")
        return SHORT[escape] if escape in SHORT else bytes([int(escape[1:], 16)])

    whole = re.sub(r"\\<(\d+) (.*?)\\>", lambda found: found[2] * int(found[1]), text)
    return re.sub(rb"\\(x[0-9a-f]{2}|[nrt\\]|)", octet, whole.encode())


def parse_line_or_numbered_lines(rest: str, is_many: bool) -> bytes:
    """A line of a text, or the lines of `FIRST LAST TEXT`, one for each of these numbers, which stands for each `#`."""
    if not is_many:
        return parse_octets(rest) + b"\n"
    found = re.fullmatch(r"(\d+) (\d+) (.*)", rest)
    if not found:
        raise RowError("such a line has two numbers and a text")
    numbers = range(int(found[1]), int(found[2]) + 1)
    return b"".join(parse_octets(found[3].replace("#", str(number))) + b"\n" for number in numbers)


def split_at_mark(text: str, mark: str, why: str) -> tuple[str, str]:
    """The text before the first mark, and the text after it."""
    front, found, back = text.partition(mark)
    if not found:
        raise RowError(why)
    return front, back


def parse_heading(row: CaseRow) -> Table:
    """The table of a heading `[NAME] KIND`, perhaps with `of PROGRAM` and `after OPENING`, without its lines."""
    found = HEADING.fullmatch(row.text)
    if not found:
        raise RowError("a heading is [NAME] KIND")
    if found[3] and not found[2].endswith(("stories", "random rows")):
        raise RowError("only stories and random rows are of a program")
    if found[4] and found[2] not in OPENED:
        raise RowError("only openings, scripts and what is explained stand after one")
    return Table(row, found[1], found[2], found[3] or PROGRAM, found[4] or "")


def parse_tables(file: Path) -> list[Table]:
    """The tables of a file, as they are written."""
    tables: list[Table] = []
    for number, line in enumerate(file.read_bytes().decode().split("\n"), 1):
        row = CaseRow(path_below_top(file), number, line)
        with add_row_to_errors(row):
            if line.startswith("["):
                tables.append(parse_heading(row))
            elif line and tables:
                tables[-1].lines.append(row)
            elif line and (not line.startswith("#") or line.startswith(MARK)):
                raise RowError("a row stands in a table")
    if not tables:
        raise RowError("a file has a table at least")
    return tables


def read_opening(table: Table) -> Opening:
    """Reads an opening: the lines after `<` and `>`, and octets without a newline after `~`."""
    given, output = table.before.given, table.before.output
    for row in table.rows:
        mark, _, rest = row.text.partition(" ")
        with add_row_to_errors(row):
            if mark == ">":
                output += parse_line_or_numbered_lines(rest, False)
            elif mark in ("<", "~"):
                given += parse_octets(rest) + (b"\n" if mark == "<" else b"")
            else:
                raise RowError("a line of an opening begins with <, ~ or >")
    return Opening(given, output)


def check_table_and_put_opening_before(table: Table, openings: Mapping[str, Opening]) -> Table:
    """A table with the openings before it, and with the one that it names."""
    if table.opening not in openings:
        raise RowError("there is no such opening")
    if not table.rows:
        raise RowError("a table has a row at least")
    if table.kind == "opening" and table.name in openings:
        raise RowError("an opening has this name")
    return replace(table, before=openings[table.opening], openings=openings)


def tables_with_openings(file: Path, known: Mapping[str, Opening]) -> Iterator[Table]:
    """The tables of a file, each with the openings that are known there."""
    openings = dict(known)
    for table in parse_tables(file):
        with add_row_to_errors(table.heading):
            whole = check_table_and_put_opening_before(table, openings)
        yield whole
        if table.kind == "opening":
            openings = {**openings, table.name: read_opening(whole)}


@cache
def shared_openings() -> Mapping[str, Opening]:
    """The openings that each file may name."""
    none = {"": Opening()}
    return {**none, **{it.name: read_opening(it) for it in tables_with_openings(OPENINGS, none)}}


def read_tables(file: Path) -> Iterator[Table]:
    """The tables of a file but openings."""
    known = {"": Opening()} if file == OPENINGS else shared_openings()
    return (table for table in tables_with_openings(file, known) if table.kind != "opening")


def case_files() -> list[Path]:
    """The files of rows, in the order of their names."""
    return sorted(CASES.rglob("*.cases"))
