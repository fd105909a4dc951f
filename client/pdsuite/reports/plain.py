"""The report for people."""

from dataclasses import dataclass


from pdsuite.output.styled_text import StyledText, styled_text_of_one_plain_piece
from pdsuite.programs.verdict import Verdict
from pdsuite.reports.outcome_text import (
    explanation_or_line_below_row,
    path_and_line,
    row_meaning_suffix_if_explained,
    row_text_with_expected_row,
    warning_lines_of,
)
from pdsuite.run.outcomes import CountedAs, ScriptOutcome, OutcomeTotals

_STYLES: dict[Verdict | CountedAs, str] = {
    Verdict.PASS: "green",
    Verdict.FAIL: "bold red",
    Verdict.SYNTAX: "bold magenta",
    Verdict.UNSUPPORTED: "yellow",
    Verdict.LIMIT: "yellow",
    Verdict.ERROR: "bold red",
    Verdict.NOT_RUN: "dim",
    CountedAs.KNOWN: "dim",
    CountedAs.UNEXPECTED: "bold red",
}
# Rows that are counted so are shown only where every script is.
_UNSHOWN = (Verdict.PASS, Verdict.NOT_RUN, CountedAs.KNOWN)
_WARNED = "yellow"
_STRICT = "bold red"


@dataclass(frozen=True)
class PlainFormatter:
    """A line for each script that doesn't pass, with its block, or for every script; warnings; then the totals."""

    every: bool

    def opening_before_scripts(self, count: int) -> StyledText:
        return StyledText()

    def streamed_script_entry_or_none(self, number: int, outcome: ScriptOutcome) -> StyledText | None:
        if not self.every and outcome.counted_as in _UNSHOWN:
            return self.styled_warnings(outcome) if outcome.warnings else None
        if outcome.warnings or outcome.is_known_failure:
            return self.row_and_warnings(outcome)
        line = self.styled_path_and_row(outcome).append(row_meaning_suffix_if_explained(outcome))
        below = "".join(
            f"  {it}\n" for it in [*explanation_or_line_below_row(outcome), *_line_diff_lines_if_requested(outcome)]
        )
        return line.append("\n").append(below, "dim")

    def styled_path_and_row(self, outcome: ScriptOutcome) -> StyledText:
        """A script's row alone."""
        return styled_text_of_one_plain_piece(f"{path_and_line(outcome)}: ").append(
            row_text_with_expected_row(outcome), _STYLES[outcome.counted_as]
        )

    def styled_warnings(self, outcome: ScriptOutcome) -> StyledText:
        """The warnings of a script, a line each."""
        style = _STRICT if outcome.is_strict else _WARNED
        return StyledText([(f"{line}\n", style) for line in warning_lines_of(outcome)])

    def row_and_warnings(self, outcome: ScriptOutcome) -> StyledText:
        """A script's row alone, with what is warned of."""
        return self.styled_path_and_row(outcome).append("\n").append_text(self.styled_warnings(outcome))

    def totals_after_scripts(self, totals: OutcomeTotals, seconds: float) -> StyledText:
        return (
            StyledText()
            .append(str(totals), totals_style(totals))
            .append(f" in {seconds:.2f} s{totals.unproved_mark}\n")
        )


def totals_style(totals: OutcomeTotals) -> str:
    """The style of the totals."""
    return "green" if totals.pass_fail_or_error_exit_status() == 0 else "bold red"


def _line_diff_lines_if_requested(outcome: ScriptOutcome) -> list[str]:
    """The lines of the line diff, where that is requested."""
    if outcome.line_diff is None:
        return []
    # Only who requests it pays for what reads scripts.
    from pdsuite.reports.diff_text import line_diff_lines

    return list(line_diff_lines(outcome.line_diff))
