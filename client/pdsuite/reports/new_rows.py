"""Shows only rows unlike an earlier report's: new ones by one form, changed ones by another; totals pass unchanged."""

from collections.abc import Callable
from dataclasses import dataclass

from pdsuite.output.styled_text import StyledText
from pdsuite.programs.verdict import Verdict
from pdsuite.reports.formatter import Formatter
from pdsuite.reports.saved_reports import SavedRows
from pdsuite.run.outcomes import ScriptOutcome, OutcomeTotals


@dataclass(frozen=True)
class NewRowsFormatter:
    """A form of which the rows are left out that were the same before; `turned` shows scripts that had another one."""

    form: Formatter
    turned: Formatter
    before: SavedRows  # by absolute paths
    absolute: Callable[[str], str]

    def opening_before_scripts(self, count: int) -> StyledText:
        return self.form.opening_before_scripts(count)

    def streamed_script_entry_or_none(self, number: int, outcome: ScriptOutcome) -> StyledText | None:
        saved = self.before.get(self.absolute(outcome.path))
        if saved is None:
            return self.form.streamed_script_entry_or_none(number, outcome)
        if saved.row == outcome.row or outcome.row.verdict is Verdict.NOT_RUN:
            return None
        return self.turned.streamed_script_entry_or_none(number, outcome)

    def totals_after_scripts(self, totals: OutcomeTotals, seconds: float) -> StyledText:
        return self.form.totals_after_scripts(totals, seconds)
