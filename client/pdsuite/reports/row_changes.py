"""The scripts that turned between two reports: one function of their rows."""

from collections.abc import Iterator
from dataclasses import dataclass
from enum import StrEnum

from pdsuite.programs.verdict import Verdict
from pdsuite.reports.saved_reports import SavedRow, SavedRows


class RowChangeKind(StrEnum):
    """How a script turned, in the order in which it is reported."""

    NO_MORE = "passes no more"
    OTHERWISE = "fails otherwise"
    NOT_RUN = "not run"
    AGAIN = "passes again"
    NEW = "new"
    GONE = "gone"


_ORDER = {kind: place for place, kind in enumerate(RowChangeKind)}


@dataclass(frozen=True, slots=True)
class RowChange:
    """How a script turned: what a report had of it before, and what it has now, where it has something."""

    path: str
    kind: RowChangeKind
    before: SavedRow | None
    now: SavedRow | None

    @property
    def is_unexpected_failure_or_pass_not_run(self) -> bool:
        """Whether something got worse: of a script that wasn't run, what passed before may fail now.

        A row that is expected is no worse than any other.
        """
        match self.kind:
            case RowChangeKind.NO_MORE | RowChangeKind.OTHERWISE:
                return not _has_expected_row(self.now)
            case RowChangeKind.NOT_RUN:
                return _passes(self.before)
            case RowChangeKind.NEW:
                return not _passes(self.now) and not _has_expected_row(self.now)
        return False


def row_changes_sorted_by_kind(before: SavedRows, now: SavedRows) -> list[RowChange]:
    """The scripts that turned, by how they did and then in the order of paths."""
    return sorted(_find_row_changes(before, now), key=lambda it: (_ORDER[it.kind], it.path.encode()))


def _find_row_changes(before: SavedRows, now: SavedRows) -> Iterator[RowChange]:
    for path in {**before, **now}:
        old, new = before.get(path), now.get(path)
        kind = _change_kind(_row_if_run(old), new)
        if kind is not None:
            yield RowChange(path, kind, old, new)


def _change_kind(old: SavedRow | None, new: SavedRow | None) -> RowChangeKind | None:
    """How a script turned whose rows are these, if it did."""
    if new is None or new.row.verdict is Verdict.NOT_RUN:
        return None if old is None else RowChangeKind.GONE if new is None else RowChangeKind.NOT_RUN
    if old is None:
        return RowChangeKind.NEW
    if _passes(new):
        return None if _passes(old) else RowChangeKind.AGAIN
    if _passes(old):
        return RowChangeKind.NO_MORE
    is_same = old.row == new.row or old.row.verdict is new.row.verdict is Verdict.PASS
    return None if is_same else RowChangeKind.OTHERWISE


def _row_if_run(saved: SavedRow | None) -> SavedRow | None:
    """A script's row; one that wasn't run has none."""
    return None if saved is None or saved.row.verdict is Verdict.NOT_RUN else saved


def _passes(saved: SavedRow | None) -> bool:
    """Whether a script passes, and fails by no strict warning."""
    return saved is not None and saved.row.verdict is Verdict.PASS and not saved.fails_by_strict_warning


def _has_expected_row(saved: SavedRow | None) -> bool:
    return saved is not None and saved.is_known is True
