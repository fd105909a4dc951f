"""Wraps the entries and totals of another report form at the terminal's width; the opening passes unchanged."""

import textwrap
from collections.abc import Callable
from dataclasses import dataclass

from pdsuite.output.fitting import wrap_prose_in_styled_text, columns_without_autowrap
from pdsuite.output.styled_text import StyledText
from pdsuite.reports.formatter import Formatter
from pdsuite.run.outcomes import ScriptOutcome, OutcomeTotals


@dataclass(frozen=True)
class FittingFormatter:
    """A form whose facts and totals are broken at blanks; `width` is how many columns the terminal has now."""

    form: Formatter
    width: Callable[[], int | None]

    def opening_before_scripts(self, count: int) -> StyledText:
        return self.form.opening_before_scripts(count)

    def streamed_script_entry_or_none(self, number: int, outcome: ScriptOutcome) -> StyledText | None:
        entry, width = self.form.streamed_script_entry_or_none(number, outcome), self.width()
        return (
            entry
            if entry is None or width is None
            else wrap_prose_in_styled_text(entry, columns_without_autowrap(width))
        )

    def totals_after_scripts(self, totals: OutcomeTotals, seconds: float) -> StyledText:
        foot, width = self.form.totals_after_scripts(totals, seconds), self.width()
        if width is None or len(foot.text_without_styles) <= columns_without_autowrap(width):
            return foot
        lines = textwrap.wrap(foot.text_without_styles, columns_without_autowrap(width))
        return StyledText([("".join(f"{line}\n" for line in lines), foot.pieces[0][1])])
