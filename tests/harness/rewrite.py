"""Rows as they are written with another answer, each with a mark before it."""

from collections.abc import Iterator, Mapping, Sequence
from dataclasses import dataclass, field
from difflib import SequenceMatcher

from harness.calls import ProgramOutput
from harness.stories import RunStory
from harness.tables import MARK, CaseRow

MARKED = f"{MARK} taken from the program: work it out by hand, and then take this line away"
# New lines by the numbers of those that they replace.
Lines = dict[int, list[str]]
WRITTEN = {ord("\\"): "\\\\", ord("\t"): "\\t", ord("\r"): "\\r"}
STATUSES = (0, 1, 2)
# The marks of the lines of a story that have the two outputs.
OUTPUT = (">", ">#", ">>", "after")
ERRORS = ("!", "!~")


class AcceptError(Exception):
    """Why a row can't be written with another answer."""


def escape_octets(line: bytes) -> str:
    """The octets of a line, as a row writes them."""
    text = "".join(WRITTEN.get(it, chr(it) if 0x20 <= it < 0x7F else f"\\x{it:02x}") for it in line)
    # So that no repetition is read where a backslash stands before this.
    return text.replace("\\\\<", "\\\\\\x3c")


def rewrite_verdict(row: CaseRow, verdict: str) -> Lines:
    """A row `VERDICT: SCRIPT` or `VERDICT under TERM, ..: SCRIPT` with another verdict."""
    head, _, script = row.text.partition(":")
    _, under, terms = head.partition(" under ")
    return {row.line: [MARKED, f"{verdict}{under}{terms}:{script}"]}


def rewrite_table_of_explanations(rows: Sequence[CaseRow], changed: Mapping[int, str]) -> Lines:
    """The rows of a table of explanations; those of some lines have another answer, which stands before them."""
    lines: Lines = {}
    wanted = ""
    # The last line `> WHAT` that is written so far, and whether it is marked.
    last = ("", False)
    for row, after in zip(rows, [*rows[1:], None]):
        if row.text.startswith("> "):
            wanted = row.text
            if after is not None and after.text.startswith("<") and after.line not in changed:
                last = (wanted, False)
            else:
                lines[row.line] = []
            continue
        now = (f"> {changed[row.line]}", True) if row.line in changed else (wanted, False)
        if now != last:
            lines[row.line] = [*([MARKED] if now[1] else []), now[0], row.text]
        last = now
    return lines


@dataclass
class StoryPiece:
    """A line of a story that stands for lines of an output, and these lines as they are now."""

    row: CaseRow
    mark: str
    before: list[bytes]
    now: list[bytes] = field(default_factory=list)

    def lines_keeping_own_if_output_begins_same(self) -> list[str]:
        """The line as it stands, and lines for the rest of the output; or other lines in its place."""
        count = len(self.before)
        if self.now[:count] == self.before:
            return [self.row.text, *self.output_lines_with_story_marks(self.now[count:])]
        if self.mark in (">>", "after"):
            raise AcceptError(f"'{self.row.text}' differs now: change what it names")
        return list(self.output_lines_with_story_marks(self.now))

    def output_lines_with_story_marks(self, lines: Sequence[bytes]) -> Iterator[str]:
        for line in lines:
            if self.mark.startswith("!"):
                yield f"!~ {escape_octets(line[2:])}" if line.startswith(b"~ ") else f"! {escape_octets(line)}"
            else:
                yield f"> {escape_octets(line)}"


def pieces_of_output_rows_with_marks(story: RunStory, marks: Sequence[str]) -> Iterator[StoryPiece]:
    """The lines of a story with these marks."""
    for row in story.rows:
        mark = row.text.partition(" ")[0]
        if mark in marks:
            alone = RunStory(story.table)
            alone.read_row(row)
            yield StoryPiece(row, mark, (alone.output + alone.errors).split(b"\n")[:-1])


def share_output_answering_lines_before_first(pieces: Sequence[StoryPiece], output: Sequence[bytes]) -> list[bytes]:
    """Shares the lines of an output among pieces; the result is the lines before the first piece."""
    owners = [piece for piece in pieces for _ in piece.before]
    before = [line for piece in pieces for line in piece.before]
    first: list[bytes] = []
    for _, start, end, low, high in SequenceMatcher(None, before, list(output), autojunk=False).get_opcodes():
        for place, line in enumerate(output[low:high], start):
            owner = owners[min(place, end - 1)] if start < end else owners[start - 1] if start else None
            (first if owner is None else owner.now).append(line)
    return first


def split_lines_requiring_last_newline(text: bytes) -> list[bytes]:
    """The lines of an output, which ends with a newline."""
    *lines, last = text.split(b"\n")
    if last:
        raise AcceptError("the output has no newline at its end")
    return lines


def rewrite_one_stream_of_story(story: RunStory, marks: Sequence[str], output: bytes) -> tuple[Lines, list[str]]:
    """The lines of a story with these marks, with another output, and those at its end where it has none."""
    pieces = list(pieces_of_output_rows_with_marks(story, marks))
    first = share_output_answering_lines_before_first(pieces, split_lines_requiring_last_newline(output))
    lines = {it.row.line: it.lines_keeping_own_if_output_begins_same() for it in pieces}
    before = list(StoryPiece(story.rows[-1], marks[0], []).output_lines_with_story_marks(first))
    if pieces:
        begin = pieces[0].row.line
        lines[begin] = [*before, *lines[begin]]
    return lines, [] if pieces else before


def rewrite_story(story: RunStory, wanted: ProgramOutput, output: ProgramOutput) -> Lines:
    """A story with another output. Lines whose output is the same stay as they are written."""
    if output.status not in STATUSES:
        raise AcceptError("the program came to no end")
    lines: Lines = {}
    more: list[str] = []
    for marks, one, other in ((OUTPUT, wanted.output, output.output), (ERRORS, wanted.errors, output.errors)):
        if one != other:
            changed, last = rewrite_one_stream_of_story(story, marks, other)
            lines, more = {**lines, **changed}, [*more, *last]
    begin, end = story.rows[0], story.rows[-1]
    lines[end.line] = [*more, f"= {output.status}"]
    lines[begin.line] = [MARKED, *lines.get(begin.line, [begin.text])]
    return lines
