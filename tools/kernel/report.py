"""The outcomes of many runs of each script, and how they are printed."""

from __future__ import annotations

from collections.abc import Iterator, Sequence
from dataclasses import dataclass

from kernel.run import RunOutcome


@dataclass(frozen=True)
class DifferencePlace:
    """A line and a field by which runs differed, how many did, and the words of the first."""

    line: int
    field: str
    runs: int
    words: str


def difference_places(outcomes: Sequence[RunOutcome]) -> list[DifferencePlace]:
    """Where runs differed, in the order of lines as the first run that did came to them."""
    words: dict[tuple[int, str], list[str]] = {}
    for outcome in outcomes:
        for it in outcome.differences:
            words.setdefault((it.line, it.field), []).append(it.words)
    places = [DifferencePlace(line, name, len(them), them[0]) for (line, name), them in words.items()]
    return sorted(places, key=lambda it: it.line)


def count_passes(outcomes: Sequence[RunOutcome]) -> int:
    """How many runs pass."""
    return sum(not it.differences for it in outcomes)


def script_lines(name: str, outcomes: Sequence[RunOutcome]) -> Iterator[str]:
    """The lines about one script: how often it passed, and where it differs."""
    disturbed = sum(it.is_disturbed for it in outcomes)
    note = f" ({disturbed} runs on a busy machine)" if disturbed else ""
    yield f"{name}: {count_passes(outcomes)} of {len(outcomes)} pass{note}"
    for place in difference_places(outcomes):
        where = f"  line {place.line} {place.field}"
        yield f"{where}: {place.runs} of {len(outcomes)}, {place.words}"


def total_line(results: Sequence[Sequence[RunOutcome]], refused: int) -> str:
    """The last line: how many scripts pass in all of their runs, in some and in none."""
    all_pass = sum(count_passes(it) == len(it) for it in results)
    none = sum(count_passes(it) == 0 for it in results)
    some = len(results) - all_pass - none
    return f"scripts {len(results) + refused}: pass {all_pass}, not each time {some}, fail {none}, not run {refused}"
