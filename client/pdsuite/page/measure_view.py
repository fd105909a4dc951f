"""The parts of the page of a measurement: a section for each case."""

from dataclasses import dataclass


@dataclass(frozen=True, slots=True)
class MeasureRow:
    """A figure: its name, both sides, the difference, where that lies, and what it shows."""

    cells: tuple[str, ...]
    verdict: str
    style: str


@dataclass(frozen=True, slots=True)
class MeasurePicture:
    """A picture as SVG below a heading, or the words why there is none."""

    title: str
    svg: str
    words: str = ""


@dataclass(frozen=True, slots=True)
class MeasureSection:
    """A case: its figures, and its pictures."""

    name: str
    title: str
    source: str
    rows: tuple[MeasureRow, ...]
    pictures: tuple[MeasurePicture, ...]
    unplayed: str = ""
