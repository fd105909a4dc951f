"""Tables of stories, which are runs of a program line by line, and the files of stories of test programs."""

import os
import re
import subprocess
from collections import Counter
from collections.abc import Iterator
from dataclasses import dataclass, field
from pathlib import Path

from harness.calls import ProgramOutput
from harness.compare import RowCase, TableKind, ProgramRun, octets_of_add_command, run_answers, check_runs
from harness.tables import (
    MARK,
    TOP,
    Opening,
    RowError,
    Table,
    CaseRow,
    parse_line_or_numbered_lines,
    parse_octets,
    split_at_mark,
    path_below_top,
    add_row_to_errors,
)


def slug(title: str) -> str:
    """A title as the name of a test."""
    return re.sub(r"[^A-Za-z0-9]+", "-", title).strip("-")


@dataclass
class RunStory:
    """A story as far as it was read: its title, its first line, the arguments, the input and the wanted outputs."""

    table: Table
    title: str = ""
    first: CaseRow | None = None
    arguments: list[bytes] = field(default_factory=list)
    given: bytes = b""
    output: bytes = b""
    errors: bytes = b""
    status: int = 0
    workers: list[str] = field(default_factory=list)
    is_short: bool = False
    is_whole: bool = False
    rows: list[CaseRow] = field(default_factory=list)

    def read_row(self, row: CaseRow) -> None:
        self.rows.append(row)
        mark, _, rest = row.text.partition(" ")
        match mark:
            case "$":
                self.arguments.append(parse_octets(rest))
            case "*":
                self.workers = rest.split()
            case "after":
                self.add_opening_input_and_output(self.find_opening(rest))
            case "<" | "<#" | "<<" | "~" | "+":
                self.given += self.input_of_line(mark, rest)
            case ">" | ">#":
                self.output += parse_line_or_numbered_lines(rest, mark == ">#")
            case ">>":
                self.output += read_file_or_add_commands_of_folder(rest)
            case "!" | "!~":
                self.errors += (b"~ " if mark == "!~" else b"") + parse_line_or_numbered_lines(rest, False)
                self.is_short = self.is_short or mark == "!~"
            case "=" if rest in ("0", "1", "2"):
                self.status, self.is_whole = int(rest), True
            case "=":
                raise RowError("a status is 0, 1 or 2")
            case _:
                raise RowError("a line of a story begins with $ < <# << ~ + > ># >> ! !~ * after or =")

    def find_opening(self, name: str) -> Opening:
        if name not in self.table.openings:
            raise RowError("there is no such opening")
        return self.table.openings[name]

    def add_opening_input_and_output(self, opening: Opening) -> None:
        self.given += opening.given
        self.output += opening.output

    def input_of_line(self, mark: str, rest: str) -> bytes:
        """The octets of the input that a line writes."""
        if mark == "~":
            return parse_octets(rest)
        if mark == "<<":
            return read_file_or_add_commands_of_folder(rest)
        if mark == "+":
            head, text = split_at_mark(rest, ": ", "a script has a name and a colon before it")
            name, _, opening = head.partition(" after ")
            return octets_of_add_command(name, self.find_opening(opening).given + parse_octets(text))
        return parse_line_or_numbered_lines(rest, mark == "<#")

    def named_runs(self, row: CaseRow) -> Iterator[tuple[str, ProgramRun]]:
        """The run, and those with workers, each with its name."""
        wanted = ProgramOutput(self.output, self.errors, self.status)
        for name, more in [("", ()), *((f"-{it}", ("--workers", it)) for it in self.workers)]:
            arguments = (*self.arguments, *(it.encode() for it in more))
            run = ProgramRun(row, self.table.program, arguments, self.given, wanted, self.is_short)
            yield slug(self.title) + name, run


def read_file_or_add_commands_of_folder(path: str) -> bytes:
    """The lines of a file of the tree, or of the commands that add the scripts of a folder."""
    whole = TOP / path
    if not whole.exists():
        raise RowError(f"there is no {path}")
    if path.endswith("/"):
        files = sorted(whole.glob("*.pkt"), key=os.fsencode)
        return subprocess.run([TOP / "tools" / "add_scripts.sh", *files], capture_output=True, check=True).stdout
    return whole.read_bytes().removesuffix(b"\n") + b"\n"


def read_run_stories(table: Table) -> Iterator[RunStory]:
    """The stories of a table; a comment before the first line of one is its title."""
    story = RunStory(table)
    for row in table.lines:
        if row.text.startswith("#"):
            if story.first is None and not row.text.startswith(MARK):
                story.title = row.text.removeprefix("#").strip()
            continue
        story.first = story.first or row
        with add_row_to_errors(row):
            story.read_row(row)
        if story.is_whole:
            yield story
            story = RunStory(table)
    if story.first is not None:
        raise RowError(f"{story.first}: the last story has no status")


def read_stories(table: Table) -> Iterator[RowCase[ProgramRun]]:
    """Runs of the program, written line by line."""
    names: Counter[str] = Counter()
    for story in read_run_stories(table):
        assert story.first is not None
        row = CaseRow(story.first.file, story.first.line, story.title)
        for name, run in story.named_runs(row):
            names[name] += 1
            more = f"-{names[name]}" if names[name] > 1 else ""
            yield RowCase(f"{name}{more}", row, (run,))


def read_titled_stories(table: Table) -> Iterator[RowCase[ProgramRun]]:
    """Each story of the files that are rows as a run, so that one that hangs has its name."""
    for row in table.rows:
        yield from stories_of_file(TOP / row.text, table.program)


def stories_of_file(file: Path, program: str) -> Iterator[RowCase[ProgramRun]]:
    """The stories of a file, each with the texts up to its end, and its rows, none of which is to differ."""
    texts: list[bytes] = []
    line = 1
    for number, story in enumerate(re.split(rb"^# ", file.read_bytes(), flags=re.MULTILINE)):
        title, *lines = story.split(b"\n")
        written = [it for it in lines if it.strip()]
        texts += [it for it in written if it.startswith(b"text ")]
        rows = [it for it in written if not it.startswith(b"text ")]
        if number and rows:
            given = b"".join(it + b"\n" for it in (*texts, *rows))
            wanted = ProgramOutput(b"%d rows, 0 differ\n" % len((*texts, *rows)), b"", 0)
            row = CaseRow(path_below_top(file), line, title.decode())
            yield RowCase(slug(row.text), row, (ProgramRun(row, program, (b"stories",), given, wanted),))
        line += story.count(b"\n")


STORIES = TableKind(read_stories, check_runs, answer=run_answers)
TITLED_STORIES = TableKind(read_titled_stories, check_runs)
