"""The report on transfers under two senders: as a table for people, and as JSON."""

import json
from collections import Counter
from collections.abc import Iterator, Sequence
from dataclasses import dataclass

from pdsuite.measure.measurement import TransferCase
from pdsuite.measure.statistics import ChangeVerdict, FigureRow, FigureTable, Unit
from pdsuite.output.fitting import wrap_with_hanging_indent
from pdsuite.output.octets import printable_text
from pdsuite.output.styled_text import StyledText, styled_text_of_one_plain_piece
from pdsuite.run.outcomes import UNPROVED

# Of the JSON, as docs/measure.schema.json has it.
VERSION = 1
_INDENT = "  "
# Times below so many microseconds are written in these.
_SHORT = 100
_STYLES = {
    ChangeVerdict.BETTER: "green",
    ChangeVerdict.WORSE: "bold red",
    ChangeVerdict.UNSHOWN: "dim",
    ChangeVerdict.SAME: "dim",
}


@dataclass(frozen=True)
class MeasureReport:
    """Tables, senders, seed, counts of transfers and seconds, and whether it is unproved or ended by a signal."""

    tables: Sequence[FigureTable]
    names: tuple[str, str]
    seed: int
    transfers: int
    seconds: float
    is_unproved: bool
    is_cut: bool = False  # a signal ended it early

    @property
    def row_counts_by_verdict(self) -> Counter[ChangeVerdict]:
        """How many rows have which verdict."""
        return Counter(row.verdict for table in self.tables for row in table.rows)


def title_of_case(case: TransferCase, runs: int) -> str:
    """A case in words."""
    twice = f", twice, {number_and_unit_as_text(Unit.TIME, case.path.idle_us)} apart" if case.path.idle_us else ""
    count = "1 run, without chance" if not case.path.has_chance else f"{runs:,} run{'s' * (runs != 1)}"
    return f"{case.path.name}, {case.size:,} octets{twice}: {count}"


def plain_report(report: MeasureReport, columns: int | None = None) -> StyledText:
    """A table of each case, and the totals, in lines of so many columns at most where that is given."""
    text = StyledText()
    for table in report.tables:
        text.append(f"{title_of_case(table.measured.case, len(table.measured.pairs))}\n", "bold")
        for line, verdict, below in lay_out_rows_in_columns_or_below(table, columns):
            text.append(f"{_INDENT}{line}  ").append(verdict, _STYLES[verdict]).append("\n")
            text.append("".join(f"{2 * _INDENT}{it}\n" for it in below))
        if table.measured.unfinished:
            text.append(
                f"{_wrap_line_if_columns_given(f'{_INDENT}{first_unplayed_reason_and_count(table)}', columns)}\n",
                "bold red",
            )
    return text.append("".join(f"{_wrap_line_if_columns_given(line, columns)}\n" for line in total_lines(report)))


def _wrap_line_if_columns_given(line: str, columns: int | None) -> str:
    return line if columns is None else wrap_with_hanging_indent(line, columns, 2 * _INDENT)


def total_lines(report: MeasureReport) -> tuple[str, str]:
    """The last lines: how many figures show what, and how many transfers were played."""
    mark = f" {UNPROVED}" if report.is_unproved else ""
    cut = " until a signal came" if report.is_cut else ""
    counts = ", ".join(f"{report.row_counts_by_verdict[it]} {it}" for it in ChangeVerdict)
    return counts, f"total {report.transfers:,} transfers in {report.seconds:.2f} s{cut}, seed {report.seed}{mark}"


def first_unplayed_reason_and_count(table: FigureTable) -> str:
    """How many transfers came to no end, and why the first didn't."""
    first, *more = table.measured.unfinished
    return f"not played: {printable_text(first)}" + (f", and {len(more)} more" if more else "")


def lay_out_rows_in_columns_or_below(
    table: FigureTable, columns: int | None
) -> Iterator[tuple[str, ChangeVerdict, Sequence[str]]]:
    """The rows of a case, each with its verdict: in columns, or where these don't fit with their numbers below."""
    cells = [row_cells_without_verdict(it) for it in table.rows]
    widths = [max(len(row[column]) for row in cells) for column in range(len(cells[0]))] if cells else []
    rows = [(row.verdict, _aligned_row_line(it, widths)) for row, it in zip(table.rows, cells)]
    if columns is None or all(len(f"{_INDENT}{line}  {verdict}") <= columns for verdict, line in rows):
        yield from ((line, verdict, ()) for verdict, line in rows)
        return
    for row, (name, *numbers) in zip(table.rows, cells):
        yield name.ljust(widths[0]), row.verdict, _numbers_in_one_or_two_lines(numbers, columns)


def _aligned_row_line(cells: Sequence[str], widths: Sequence[int]) -> str:
    name, *numbers = cells
    return "  ".join([name.ljust(widths[0]), *(it.rjust(width) for it, width in zip(numbers, widths[1:]))])


def _numbers_in_one_or_two_lines(numbers: Sequence[str], columns: int) -> Sequence[str]:
    """Numbers in a line; where it doesn't fit the last, which says where a difference lies, has one of its own."""
    line = "  ".join(it for it in numbers if it)
    return [line] if len(f"{2 * _INDENT}{line}") <= columns else ["  ".join(numbers[:-1]), numbers[-1]]


def row_cells_without_verdict(row: FigureRow) -> tuple[str, ...]:
    """A row in words: its name, both sides, the difference, and where that lies."""
    unit = row.figure.unit
    is_short = max(row.before, row.after) < _SHORT
    before, after = number_and_unit_as_text(unit, row.before, "", is_short), number_and_unit_as_text(
        unit, row.after, "", is_short
    )
    difference, low, high = (
        number_and_unit_as_text(unit, it, "+", is_short) for it in (row.difference, row.low, row.high)
    )
    return row.figure.words, before, after, difference, f"({low} to {high})" if row.chance is not None else ""


def number_and_unit_as_text(unit: Unit, value: float, sign: str = "", is_short: bool = False) -> str:
    """A number with its unit; a time in milliseconds, or beside short times in microseconds."""
    if unit is Unit.TIME and is_short:
        return f"{value:{sign},.3f} us"
    if unit is Unit.TIME:
        return f"{value / 1_000:{sign},.3f} ms"
    if unit is Unit.SHARE:
        return f"{100 * value:{sign}.2f} %"
    return f"{value:{sign},.2f}"


def as_json(report: MeasureReport) -> StyledText:
    """One object: the senders, and each case with its rows."""
    whole: dict[str, object] = {
        "version": VERSION,
        "before": report.names[0],
        "after": report.names[1],
        "seed": report.seed,
        "cases": [_case_object(it) for it in report.tables],
        "verdicts": {it.value: report.row_counts_by_verdict[it] for it in ChangeVerdict},
        "transfers": report.transfers,
        "seconds": round(report.seconds, 2),
    }
    if report.is_cut:
        whole["cut"] = True
    if report.is_unproved:
        whole[UNPROVED] = True
    return styled_text_of_one_plain_piece(json.dumps(whole, ensure_ascii=False, indent=1) + "\n")


def _case_object(table: FigureTable) -> dict[str, object]:
    measured = table.measured
    case: dict[str, object] = {
        "path": measured.case.path.name,
        "octets": measured.case.size,
        "chance": measured.case.path.has_chance,
        "figures": {it.figure.key: _row_object(it) for it in table.rows},
        "runs": [{"run": it.run, "before_us": it.before.time, "after_us": it.after.time} for it in measured.pairs],
    }
    if measured.unfinished:
        case["unplayed"] = [printable_text(it) for it in measured.unfinished]
    return case


def _row_object(row: FigureRow) -> dict[str, object]:
    return {
        "words": row.figure.words,
        "unit": row.figure.unit.value,
        "before": _round_to_six(row.before),
        "after": _round_to_six(row.after),
        "difference": _round_to_six(row.difference),
        "low": _round_to_six(row.low),
        "high": _round_to_six(row.high),
        "chance": None if row.chance is None else _round_to_six(row.chance),
        "verdict": row.verdict.value,
    }


def _round_to_six(value: float) -> float:
    return round(value, 6)
