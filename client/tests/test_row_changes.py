"""The scripts that turned between two reports: a function of their rows."""

import random
from collections.abc import Mapping

import pytest

from pdsuite.programs.verdict import Row, Verdict
from pdsuite.reports.row_changes import RowChange, RowChangeKind, row_changes_sorted_by_kind
from pdsuite.reports.saved_reports import SavedRow

PASSES = Row(Verdict.PASS, 9)
FAILS = Row(Verdict.FAIL, 12, "seq")
NOT_RUN = Row(Verdict.NOT_RUN)
OTHERS = [
    Row(Verdict.FAIL, 13, "seq"),
    Row(Verdict.FAIL, 12, "ack"),
    Row(Verdict.SYNTAX, 12),
    Row(Verdict.UNSUPPORTED, 12),
    Row(Verdict.LIMIT, 12),
    Row(Verdict.ERROR, word="Permission denied"),
]


def rows(**each: Row) -> Mapping[str, SavedRow]:
    return {path: SavedRow(row) for path, row in each.items()}


def turned(before: Row | None, now: Row | None) -> RowChange | None:
    """The change of one script that had and has these rows, if it turned."""
    each = row_changes_sorted_by_kind({} if before is None else rows(a=before), {} if now is None else rows(a=now))
    assert len(each) <= 1
    return each[0] if each else None


def change_of(before: Row | None, now: Row | None) -> tuple[str, bool] | None:
    """How a script turned, and whether that is worse."""
    it = turned(before, now)
    return None if it is None else (it.kind.value, it.is_unexpected_failure_or_pass_not_run)


@pytest.mark.parametrize("row", [FAILS, *OTHERS], ids=str)
def test_a_script_that_passed_and_does_not_any_more_is_worse(row: Row) -> None:
    assert change_of(PASSES, row) == ("passes no more", True)
    assert change_of(row, PASSES) == ("passes again", False)
    assert change_of(row, row) is None


@pytest.mark.parametrize("row", OTHERS, ids=str)
def test_another_line_kind_or_verdict_is_worse_both_ways(row: Row) -> None:
    assert change_of(FAILS, row) == change_of(row, FAILS) == ("fails otherwise", True)


def test_a_pass_of_other_events_is_no_difference() -> None:
    assert change_of(PASSES, Row(Verdict.PASS, 10)) is None


def test_a_new_script_is_worse_where_it_does_not_pass() -> None:
    assert change_of(None, PASSES) == ("new", False)
    assert change_of(None, FAILS) == ("new", True)


@pytest.mark.parametrize(("is_known", "is_worse"), [(True, False), (False, True)])
def test_a_new_script_that_fails_is_worse_where_that_is_not_expected_of_it(is_known: bool, is_worse: bool) -> None:
    (it,) = row_changes_sorted_by_kind({}, {"a": SavedRow(FAILS, is_known=is_known)})
    assert (it.kind, it.is_unexpected_failure_or_pass_not_run) == (RowChangeKind.NEW, is_worse)


STRICT = SavedRow(PASSES, is_strict=True)


@pytest.mark.parametrize(
    ("before", "now", "change"),
    [
        (SavedRow(PASSES), STRICT, ("passes no more", True)),
        (STRICT, SavedRow(PASSES), ("passes again", False)),
        (STRICT, SavedRow(Row(Verdict.PASS, 10), is_strict=True), None),
        (SavedRow(FAILS), STRICT, ("fails otherwise", True)),
        (STRICT, SavedRow(FAILS), ("fails otherwise", True)),
        (None, STRICT, ("new", True)),
        (STRICT, SavedRow(NOT_RUN), ("not run", False)),
        # Where a row is expected, that alone decides.
        (SavedRow(FAILS, is_known=True), SavedRow(PASSES, is_strict=True, is_known=False), ("passes again", False)),
    ],
)
def test_a_script_that_a_strict_warning_makes_fail_does_not_pass(
    before: SavedRow | None, now: SavedRow, change: tuple[str, bool] | None
) -> None:
    each = row_changes_sorted_by_kind({} if before is None else {"a": before}, {"a": now})
    found = [(it.kind.value, it.is_unexpected_failure_or_pass_not_run) for it in each]
    assert found == ([] if change is None else [change])


def test_a_script_that_went_is_not_worse() -> None:
    assert change_of(PASSES, None) == change_of(FAILS, None) == ("gone", False)


def test_a_script_that_is_not_run_is_worse_where_it_passed() -> None:
    assert change_of(PASSES, NOT_RUN) == ("not run", True)
    assert change_of(FAILS, NOT_RUN) == ("not run", False)


def test_a_script_that_was_not_run_is_as_if_it_had_not_been_there() -> None:
    assert change_of(NOT_RUN, FAILS) == ("new", True)
    assert change_of(NOT_RUN, PASSES) == ("new", False)
    assert change_of(NOT_RUN, None) is change_of(None, NOT_RUN) is change_of(NOT_RUN, NOT_RUN) is None


def test_the_worst_comes_first_and_equal_ones_in_the_order_of_paths() -> None:
    before = rows(z=PASSES, a=PASSES, again=FAILS, gone=FAILS, same=FAILS, other=FAILS, left=PASSES)
    now = rows(new=PASSES, again=PASSES, a=FAILS, z=FAILS, same=FAILS, other=OTHERS[0], left=NOT_RUN)
    each = [(it.path, it.kind) for it in row_changes_sorted_by_kind(before, now)]
    assert each == [
        ("a", RowChangeKind.NO_MORE),
        ("z", RowChangeKind.NO_MORE),
        ("other", RowChangeKind.OTHERWISE),
        ("left", RowChangeKind.NOT_RUN),
        ("again", RowChangeKind.AGAIN),
        ("new", RowChangeKind.NEW),
        ("gone", RowChangeKind.GONE),
    ]


@pytest.mark.parametrize("seed", range(50))
def test_what_turned_one_way_turns_back_the_other_way(seed: int) -> None:
    chance = random.Random(seed)
    kinds = [None, PASSES, FAILS, *OTHERS]
    before, now = (
        {name: SavedRow(row) for name in "abcdefghijkl" if (row := chance.choice(kinds)) is not None} for _ in range(2)
    )
    back = {
        RowChangeKind.NO_MORE: RowChangeKind.AGAIN,
        RowChangeKind.AGAIN: RowChangeKind.NO_MORE,
        RowChangeKind.NEW: RowChangeKind.GONE,
        RowChangeKind.GONE: RowChangeKind.NEW,
    }
    there = {it.path: it.kind for it in row_changes_sorted_by_kind(before, now)}
    assert {it.path: back.get(it.kind, it.kind) for it in row_changes_sorted_by_kind(now, before)} == there
    assert there.keys() == {it for it in {**before, **now} if before.get(it) != now.get(it)}
