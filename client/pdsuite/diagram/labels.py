"""Where words stand above a diagram: each begins at its moment, and none lies over another."""

from collections.abc import Sequence
from dataclasses import dataclass

from pdsuite.diagram.timeline_parts import Timeline

MOST_ROWS = 5
_GAP = 8.0


@dataclass(frozen=True, slots=True)
class Label:
    """Words for a moment of the diagram."""

    at: int
    words: str
    is_later: bool = False
    is_failure: bool = False


@dataclass(frozen=True, slots=True)
class PlacedLabel:
    """A label, where its words begin, and in which row, counted from the lowest; without a row it has no room."""

    label: Label
    left: float
    row: int | None


def timeline_labels_in_time_order(timeline: Timeline) -> list[Label]:
    """The labels of a diagram's notes and its failing line, in the order of time."""
    labels = [Label(it.at, it.words, it.is_later) for it in timeline.notes]
    if timeline.failure is not None:
        labels.append(Label(timeline.failure.at, f"line {timeline.failure.line} fails", is_failure=True))
    return sorted(labels, key=lambda it: it.at)


def place_in_rows(labels: Sequence[Label], places: Sequence[float], letter: float, width: float) -> list[PlacedLabel]:
    """The labels in rows, each in the lowest that has room. `places` are theirs, in a width of so many units."""
    ends = [-_GAP] * MOST_ROWS
    done = []
    for label, place in zip(labels, places):
        long = len(label.words) * letter
        left = max(0.0, min(place, width - long))
        row = next((it for it, end in enumerate(ends) if end + _GAP <= left), None)
        if row is not None:
            ends[row] = left + long
        done.append(PlacedLabel(label, left, row))
    return done
