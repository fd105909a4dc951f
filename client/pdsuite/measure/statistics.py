"""Figures of transfers under two senders, their differences by a paired bootstrap, and what those show."""

from collections.abc import Callable, Iterator, Sequence
from dataclasses import dataclass, replace
from enum import StrEnum
from functools import lru_cache
from typing import Any

import numpy

from pdsuite.measure.measurement import MeasuredCase
from pdsuite.measure.transfer import TransferResult

# Samples of a bootstrap, and how many are looked at at once.
_SAMPLES = 9_999
_BLOCK = 1_111
_SEED = 1
# The largest chance that any difference that is shown is wrong, over all tables together. An interval misses the true
# difference with this chance.
LEVEL = 0.05

Array = Any


class ChangeVerdict(StrEnum):
    """The verdict on a difference."""

    BETTER = "better"
    WORSE = "worse"
    UNSHOWN = "no difference shown"
    SAME = "the same"


class Unit(StrEnum):
    """The unit of a figure."""

    TIME = "microseconds"
    SHARE = "share"
    COUNT = "count"


@dataclass(frozen=True)
class Figure:
    """A number of many transfers: what of each it is of, and whether more of it is better.

    It is the least value that such a share of the runs doesn't exceed, or without a share the mean.
    """

    key: str
    words: str
    unit: Unit
    of: Callable[[TransferResult, int], float]  # with the rate of the path
    share: float | None = None
    is_more_better: bool = False


@dataclass(frozen=True)
class FigureRow:
    """A figure under both senders: the difference, where it lies by the runs, and what that shows.

    There is no chance where nothing is drawn: the difference is exact, and `chance` None. Else that is the share of
    such differences, or larger ones, where there is none.
    """

    figure: Figure
    before: float
    after: float
    low: float
    high: float
    chance: float | None
    verdict: ChangeVerdict = ChangeVerdict.UNSHOWN

    @property
    def difference(self) -> float:
        return self.after - self.before


@dataclass(frozen=True)
class FigureTable:
    """A case with its rows; without runs it has none."""

    measured: MeasuredCase
    rows: tuple[FigureRow, ...]


FIGURES = (
    *(
        Figure(key, f"time to deliver, {words}", Unit.TIME, lambda it, _: it.time, share)
        for key, words, share in (
            ("time_median", "median", 0.5),
            ("time_90", "90th percentile", 0.9),
            ("time_99", "99th percentile", 0.99),
        )
    ),
    Figure(
        "goodput",
        "goodput, of the rate",
        Unit.SHARE,
        lambda it, rate: goodput_as_share_of_path_rate(it, rate),
        is_more_better=True,
    ),
    Figure("segments_again", "segments sent again", Unit.COUNT, lambda it, _: it.segments_again),
    Figure("octets_again", "octets sent again", Unit.COUNT, lambda it, _: it.octets_again),
    Figure("expiries", "expiries of the timer", Unit.COUNT, lambda it, _: it.expiries),
    Figure("queue", "time in the queue", Unit.TIME, lambda it, _: it.queue),
)


def goodput_as_share_of_path_rate(it: TransferResult, rate: int) -> float:
    """The octets that the peer got, as a share of what the path could have brought in that time."""
    return it.octets * 8_000_000 / it.time / rate


def figure_tables_with_holm_verdicts(cases: Sequence[MeasuredCase]) -> list[FigureTable]:
    """The tables of all cases, with verdicts that hold together."""
    tables = [FigureTable(it, tuple(_figure_rows_without_verdicts(it)) if it.pairs else ()) for it in cases]
    shown = _shown_by_holm([row.chance for table in tables for row in table.rows])
    verdicts = iter(shown)
    return [
        replace(table, rows=tuple(replace(row, verdict=_verdict_of_row(row, next(verdicts))) for row in table.rows))
        for table in tables
    ]


def _figure_rows_without_verdicts(it: MeasuredCase) -> Iterator[FigureRow]:
    """The figures of a case, whose verdicts are open. All are of the same samples of runs."""
    rate = it.case.path.rate
    count = len(it.pairs)
    for figure in FIGURES:
        sides = [numpy.array([figure.of(pair.sides[side], rate) for pair in it.pairs], float) for side in (0, 1)]
        before, after = (
            float(_mean_or_quantile_per_sample(each, numpy.ones((1, count)), figure.share)[0]) for each in sides
        )
        if not it.case.path.has_chance:
            yield FigureRow(figure, before, after, after - before, after - before, None)
        elif (sides[0] == sides[1]).all():
            yield FigureRow(figure, before, after, 0.0, 0.0, 1.0)
        else:
            differences = _bootstrap_differences(sides, figure.share)
            low, high = numpy.quantile(differences, (LEVEL / 2, 1 - LEVEL / 2))
            yield FigureRow(
                figure,
                before,
                after,
                float(low),
                float(high),
                _p_value_floored_by_sign_test(differences, int((sides[0] != sides[1]).sum())),
            )


def _bootstrap_differences(sides: Sequence[Array], share: float | None) -> Array:
    """The difference of both sides in each sample of the pairs."""
    counts = _bootstrap_counts(len(sides[0]))
    blocks = [counts[begin : begin + _BLOCK] for begin in range(0, _SAMPLES, _BLOCK)]
    return numpy.concatenate(
        [
            _mean_or_quantile_per_sample(sides[1], it, share) - _mean_or_quantile_per_sample(sides[0], it, share)
            for it in blocks
        ]
    )


@lru_cache(maxsize=1)
def _bootstrap_counts(count: int) -> Array:
    """How often each of so many pairs is in each sample, the same at each call."""
    draw = numpy.random.default_rng(_SEED)
    return draw.multinomial(count, [1 / count] * count, _SAMPLES).astype(numpy.int16)


def _mean_or_quantile_per_sample(values: Array, counts: Array, share: float | None) -> Array:
    """A figure of each sample: the mean, or the least value that such a share of it doesn't exceed."""
    count = len(values)
    if share is None:
        return counts @ values / count
    order = values.argsort(kind="stable")
    reached = counts[:, order].cumsum(axis=1) >= share * count
    return values[order][reached.argmax(axis=1)]


def _p_value_floored_by_sign_test(differences: Array, unequal: int) -> float:
    """How often chance alone would make such a difference: both tails, and no less than a test of signs allows."""
    tail = min(int((differences <= 0).sum()), int((differences >= 0).sum()))
    return min(1.0, max(2 * (tail + 1) / (len(differences) + 1), 2.0 ** (1 - unequal)))


def _shown_by_holm(chances: Sequence[float | None]) -> list[bool]:
    """Which differences are shown, so that all of them are with the same certainty (Holm)."""
    tested = sorted((it, place) for place, it in enumerate(chances) if it is not None)
    shown = [it is None for it in chances]
    for number, (chance, place) in enumerate(tested):
        if chance > LEVEL / (len(tested) - number):
            break
        shown[place] = True
    return shown


def _verdict_of_row(row: FigureRow, is_shown: bool) -> ChangeVerdict:
    if row.low == row.high == row.difference == 0:
        return ChangeVerdict.SAME
    if not is_shown or row.difference == 0:
        return ChangeVerdict.UNSHOWN
    return ChangeVerdict.BETTER if (row.difference > 0) is row.figure.is_more_better else ChangeVerdict.WORSE
