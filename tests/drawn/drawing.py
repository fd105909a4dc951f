"""The dice by which random rows are drawn, and the amount that is drawn."""

from collections.abc import Iterator
from dataclasses import dataclass


class SeededDice:
    """Numbers that are the same at each run."""

    def __init__(self, seed: int) -> None:
        self.state = seed

    def below(self, bound: int) -> int:
        """A number below this one."""
        self.state = (self.state * 6_364_136_223_846_793_005 + 1_442_695_040_888_963_407) % 2**64
        return (self.state >> 33) % bound


@dataclass(frozen=True)
class Amount:
    """How much is drawn: so many lists, or, where `rows` is given, whole lists until they have as many rows."""

    lists: int
    rows: int | None = None

    def take_lists_until_enough(self, lists: Iterator[list[str]]) -> Iterator[list[str]]:
        """The first lists of those that are drawn one after the other."""
        count = rows = 0
        while count < self.lists if self.rows is None else rows < self.rows:
            drawn = next(lists)
            count, rows = count + 1, rows + len(drawn)
            yield drawn
