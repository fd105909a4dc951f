"""The parts that every form of a report offers."""

from collections.abc import Sequence
from typing import Protocol

from pdsuite.output.styled_text import StyledText
from pdsuite.run.outcomes import ScriptOutcome, OutcomeTotals


class Formatter(Protocol):
    """A report in parts: what stands first, what stands for each script in the order of paths, what stands last."""

    def opening_before_scripts(self, count: int) -> StyledText:
        """The opening of a report of so many scripts."""

    def streamed_script_entry_or_none(self, number: int, outcome: ScriptOutcome) -> StyledText | None:
        """The entry of a script, if it has one; the first script has the number 1."""

    def totals_after_scripts(self, totals: OutcomeTotals, seconds: float) -> StyledText:
        """The totals at the end of the report."""


def format_report(form: Formatter, outcomes: Sequence[ScriptOutcome], totals: OutcomeTotals, seconds: float) -> str:
    """A report of outcomes that are all there."""
    entries = (form.streamed_script_entry_or_none(number, it) for number, it in enumerate(outcomes, 1))
    parts = [form.opening_before_scripts(len(outcomes)), *entries, form.totals_after_scripts(totals, seconds)]
    return "".join(it.text_without_styles for it in parts if it is not None)
