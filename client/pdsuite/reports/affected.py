"""The rows, runs and paragraphs of its tree that a changed sender affects, as lines."""

from collections.abc import Iterator, Sequence
from itertools import groupby

from pdsuite.compare.affected import Affected, AffectedRow, Paragraph
from pdsuite.output.octets import printable_text


def affected_lines(affected: Affected) -> list[str]:
    """A line for each file of rows, run and paragraph that is affected, after one that counts them."""
    runs = [it for it in affected.rows if it.title]
    rows = [it for it in affected.rows if not it.title]
    found = [it for it in affected.paragraphs or () if it.page]
    lines = [
        *_one_report_line_per_row_file(rows),
        *(f"{_join_file_and_line(it.file, it.line)}: {printable_text(it.title)}" for it in runs),
    ]
    lines += [line for it in affected.paragraphs or () for line in _lines_on_affected_paragraph(it)]
    if affected.paragraphs is None:
        lines.append("paragraphs of pages: unknown, since the sources of the sender before are")
    if affected.unheard:
        lines.append(f"{affected.unheard} rows: nothing was heard of them, since the program ended")
    counts = f"rows {len(rows)} runs {len(runs)} paragraphs {len(found)}"
    return [f"affected in the tree: {counts}", *(f"  {it}" for it in lines)]


def _join_file_and_line(file: str, line: int) -> str:
    return f"{printable_text(file)}:{line}"


def _one_report_line_per_row_file(rows: Sequence[AffectedRow]) -> Iterator[str]:
    """The rows of each file: their lines."""
    for file, mine in groupby(rows, key=lambda it: it.file):
        lines = [it.line for it in mine]
        word = "line" if len(lines) == 1 else f"{len(lines)} rows, lines"
        yield f"{printable_text(file)}: {word} {', '.join(collapse_ranges(lines))}"


def collapse_ranges(numbers: Sequence[int]) -> Iterator[str]:
    """Numbers, those that follow one another as `FIRST-LAST`."""
    for _, each in groupby(enumerate(numbers), key=lambda it: it[1] - it[0]):
        span = [number for _, number in each]
        yield str(span[0]) if len(span) == 1 else f"{span[0]}-{span[-1]}"


def _lines_on_affected_paragraph(it: Paragraph) -> Iterator[str]:
    if it.page:
        yield f"{_join_file_and_line(it.page, it.line)}: {it.heading}, '{it.name}': {', '.join(it.sections)}"
        yield from (f"  {rule}" for rule in it.rules)
    else:
        why = "its code changed, and paragraphs are about definitions" if it.name else "no paragraph cites its section"
        yield from (f"{rule}: {why}" for rule in it.rules)
