"""`pdsuite diff`: what turned between two reports. It runs nothing."""

import os
from collections import Counter
from collections.abc import Iterable, Sequence
from pathlib import Path

from pdsuite.faults import Fault
from pdsuite.output.octets import printable_path
from pdsuite.output.screen import Screen
from pdsuite.output.styled_text import StyledText, styled_text_of_one_plain_piece
from pdsuite.reports.report_cache import newest_report_covering
from pdsuite.reports.row_changes import RowChange, RowChangeKind, row_changes_sorted_by_kind
from pdsuite.reports.saved_reports import SavedReport, SavedRow, read_reports_as_one

_STYLES = {RowChangeKind.AGAIN: "green", RowChangeKind.NEW: "", RowChangeKind.GONE: "dim", RowChangeKind.NOT_RUN: "dim"}
_WORSE = "bold red"


def diff_reports_returning_1_if_any_worse(old: Path, new: Sequence[Path], screen: Screen) -> int:
    """Shows what turned, and answers the exit status: 1 where something got worse."""
    before = read_reports_as_one([old])
    if new:
        now = read_reports_as_one(new)
    else:
        before, now = _pair_with_newest_covering_report(before)
    _require_same_shards_and_common_scripts(before, now)
    turned = row_changes_sorted_by_kind(before.rows, now.rows)
    same = len({**before.rows, **now.rows}) - len(turned)
    screen.show(_render_row_changes_and_total(turned, same))
    return 1 if any(it.is_unexpected_failure_or_pass_not_run for it in turned) else 0


def _pair_with_newest_covering_report(before: SavedReport) -> tuple[SavedReport, SavedReport]:
    """A report, and the last one that was kept of its scripts, with paths from the working folder in both."""
    here = printable_path(os.getcwd()).rstrip("/") + "/"
    whole = {os.path.normpath(os.path.join(here, path)): it for path, it in before.rows.items()}
    now = newest_report_covering(whole)
    if now is None:
        raise Fault(f"{before.place}: no run has left a report of all these scripts: run them, or name a second report")
    return (
        SavedReport(before.place, {it.removeprefix(here): row for it, row in whole.items()}, before.shards),
        SavedReport(now.place, {it.removeprefix(here): row for it, row in now.rows.items()}, now.shards),
    )


def _require_same_shards_and_common_scripts(before: SavedReport, now: SavedReport) -> None:
    """Raises a fault where two reports can't be compared."""
    if before.shards != now.shards:
        for report in (before, now):
            if (shard := report.first_missing_shard()) is not None:
                raise Fault(f"{report.place}: the report of shard {shard} is missing")
    if (before.rows or now.rows) and before.rows.keys().isdisjoint(now.rows):
        raise Fault(f"{before.place} and {now.place} have no script in common: paths count as they stand there")


def _render_row_changes_and_total(turned: Iterable[RowChange], same: int) -> StyledText:
    text = StyledText()
    counts: Counter[RowChangeKind] = Counter()
    for it in turned:
        counts[it.kind] += 1
        text.append_text(_change_line(it))
    each = " ".join(f"{kind} {counts[kind]}" for kind in RowChangeKind)
    return text.append(f"total {counts.total() + same} {each} as before {same}\n")


def _change_line(it: RowChange) -> StyledText:
    """The line of a script: how it turned, its row, and the one that it had before."""
    row = None if it.now is None else it.now.row
    place = it.path if row is None or row.line is None else f"{it.path}:{row.line}"
    style = _WORSE if it.is_unexpected_failure_or_pass_not_run else _STYLES.get(it.kind, "")
    line = styled_text_of_one_plain_piece(f"{place}: ").append(it.kind, style)
    if row is not None and it.kind is not RowChangeKind.NOT_RUN:
        known = "known: " if it.now is not None and it.now.is_known else ""
        line.append(f": {known}{row}{_mark_of_strict_warning(it.now)}")
    if it.before is not None and it.kind is not RowChangeKind.NEW:
        line.append(f", was {it.before.row.whole_text_without_name}{_mark_of_strict_warning(it.before)}")
    return line.append("\n")


def _mark_of_strict_warning(saved: SavedRow | None) -> str:
    """The mark of a row that reads as a pass, where a warning makes its script fail."""
    return " (strict warning)" if saved is not None and saved.fails_by_strict_warning else ""
