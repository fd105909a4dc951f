"""The outcomes of scripts, and their totals."""

from collections.abc import Iterable, Mapping
from dataclasses import dataclass
from enum import StrEnum
from typing import TYPE_CHECKING

from pdsuite.programs.cause_text import make_printable
from pdsuite.programs.verdict import Row, Verdict
from pdsuite.scripts.expectation import Expectation
from pdsuite.scripts.settings import Settings

if TYPE_CHECKING:
    from pdsuite.run.line_diff import LineDiff

# Stands in each report of a sender that isn't proved.
UNPROVED = "UNPROVED"
# The line that the program marks, in what it explains by keys.
_TEXT_LINE = "text_line"
# The words on the end of a script that passes may begin with this.
_IT = "it "


class CountedAs(StrEnum):
    """How a script is counted of which a row is expected: by whether it has it."""

    KNOWN = "known"
    UNEXPECTED = "unexpected"


class PassWarning(StrEnum):
    """Why a script that passes shows nothing, in the words that follow `passes, but`; the program has more."""

    NO_EVENT = "has no event"


@dataclass(slots=True)
class ScriptOutcome:
    """A script's path and settings, its row, the line of its text that the row names, and why it is so.

    `why` and `block_lines` are what the row means and the lines below it, as the program explains it; `explanation` is
    the same as an object, where that is requested or the text is no script. `at_end` is the warning at the end of a
    script that passes. `line_diff` compares one that fails line by line, where that is requested. `is_strict` says
    whether a warning makes the script fail, and `expected` which row is expected of it.
    """

    path: str
    settings: Settings
    row: Row
    text: bytes | None = None
    why: str = ""
    block_lines: tuple[str, ...] = ()
    is_strict: bool = False
    expected: Expectation | None = None
    explanation: Mapping[str, object] | None = None
    at_end: str = ""
    line_diff: "LineDiff | None" = None

    @property
    def explained_or_row_line_number(self) -> int | None:
        """The line of its text that the row is about: the row's, or the one before at whose end a text breaks off."""
        found = self.explanation.get(_TEXT_LINE) if self.explanation is not None else None
        return found if isinstance(found, int) else self.row.line

    @property
    def is_known_failure(self) -> bool:
        """Whether the script doesn't pass, as is expected of it."""
        return self.expected is not None and self.expected.is_beginning_of_row(self.row.whole_text_without_name)

    @property
    def has_unexpected_row(self) -> bool:
        """Whether the script was run, and another row is expected of it."""
        return self.expected is not None and self.row.verdict is not Verdict.NOT_RUN and not self.is_known_failure

    @property
    def counted_as(self) -> Verdict | CountedAs:
        """How the script is counted. One that couldn't be run is an error, whatever else is expected of it."""
        if self.expected is None or self.row.verdict is Verdict.NOT_RUN:
            return self.row.verdict
        if self.is_known_failure:
            return CountedAs.KNOWN
        return self.row.verdict if self.row.verdict is Verdict.ERROR else CountedAs.UNEXPECTED

    @property
    def warnings(self) -> tuple[str, ...]:
        """The warnings of a script that passes, in the words that follow `passes, but`."""
        if self.row.verdict is not Verdict.PASS:
            return ()
        words = self.at_end if self.row.number else PassWarning.NO_EVENT
        return (words,) if words else ()

    @property
    def lets_run_pass(self) -> bool:
        """Whether the script makes no run fail: it passes, and no warning makes it fail, or its row is expected."""
        if self.expected is not None:
            return self.is_known_failure
        return self.row.verdict is Verdict.PASS and not (self.is_strict and self.warnings)


def end_warning_of_passing_row(row: Row, cause: Mapping[str, object] | None) -> str:
    """The warning at the end of a script that passes, if there is one, in the words that follow `passes, but`."""
    if cause is None or row.verdict is not Verdict.PASS or not row.number:
        return ""
    return make_printable(str(cause.get("what", ""))).removeprefix(_IT)


@dataclass(frozen=True)
class OutcomeTotals:
    """How many scripts are counted how, how many warnings there are, and how many of those that pass fail by one.

    And whether the sender isn't proved, which the last line of a report says.
    """

    counts: dict[Verdict | CountedAs, int]
    warnings: int = 0
    failing: int = 0
    is_unproved: bool = False

    @classmethod
    def of_outcomes(cls, outcomes: Iterable[ScriptOutcome]) -> "OutcomeTotals":
        """The totals of outcomes."""
        counts: dict[Verdict | CountedAs, int] = dict.fromkeys((*Verdict, *CountedAs), 0)
        warned: list[ScriptOutcome] = []
        for outcome in outcomes:
            tally = outcome.row.verdict if outcome.expected is None else outcome.counted_as
            counts[tally] += 1
            if outcome.warnings:
                warned.append(outcome)
        failing = sum(it.is_strict and it.expected is None for it in warned)
        return cls(counts, sum(len(it.warnings) for it in warned), failing)

    @property
    def script_count(self) -> int:
        return sum(self.counts.values())

    @property
    def passing_count_without_strict_warnings(self) -> int:
        """How many scripts pass, and fail by no warning."""
        return self.counts[Verdict.PASS] - self.failing

    @property
    def unproved_mark(self) -> str:
        """The mark that ends the last line where the sender isn't proved."""
        return f" {UNPROVED}" if self.is_unproved else ""

    def __str__(self) -> str:
        counts = [f"{it.value} {count}" for it, count in self.counts.items() if count or isinstance(it, Verdict)]
        warnings = [f"warnings {self.warnings}"] if self.warnings else []
        return " ".join([f"total {self.script_count}", *counts, *warnings])

    def nonzero_counts_text(self) -> str:
        """The counts that aren't 0."""
        counts = [f"{it.value} {count}" for it, count in self.counts.items() if count]
        warnings = [f"warnings {self.warnings}"] if self.warnings else []
        return " ".join([f"total {self.script_count}", *counts, *warnings])

    def pass_fail_or_error_exit_status(self) -> int:
        """The exit status: 0 where each script passes or is known not to, 2 where one couldn't be run, else 1."""
        if self.counts[Verdict.ERROR]:
            return 2
        return (
            0 if self.passing_count_without_strict_warnings + self.counts[CountedAs.KNOWN] == self.script_count else 1
        )
