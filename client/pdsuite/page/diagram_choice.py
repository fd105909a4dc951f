"""Which scripts have a diagram: those that are requested, and the first that fail."""

from collections.abc import Iterable, Iterator
from dataclasses import dataclass
from enum import Enum

from pdsuite.programs.verdict import Verdict
from pdsuite.run.outcomes import ScriptOutcome
from pdsuite.scripts.discover import does_path_or_name_fit_pattern

# So many failing scripts are drawn if no number is given.
MOST = 50


class Plot(Enum):
    """Whether a script's diagram is drawn, and where to."""

    NONE = "none"
    PAGE = "page"
    FILES = "files"  # and on its page


@dataclass(frozen=True, slots=True)
class DiagramChoice:
    """The requested diagrams: of the scripts whose path or name fits `pattern`, and of the first `most` that fail."""

    pattern: str | None = None
    most: int = MOST


def diagram_choice_with_defaults(pattern: str | None, most: int | None) -> DiagramChoice:
    """The choice by two options, each of which may be missing."""
    return DiagramChoice(pattern, MOST if most is None else most)


def choose_plot_of_each_script(outcomes: Iterable[ScriptOutcome], wanted: DiagramChoice) -> Iterator[Plot]:
    """Of each script, in the order of paths, whether it is drawn."""
    left = wanted.most
    for outcome in outcomes:
        is_first = outcome.row.verdict is Verdict.FAIL and left > 0
        left -= is_first
        if wanted.pattern is not None and does_path_or_name_fit_pattern(outcome.path, wanted.pattern):
            yield Plot.FILES
        else:
            yield Plot.PAGE if is_first else Plot.NONE
