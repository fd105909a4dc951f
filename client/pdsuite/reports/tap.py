"""The report as TAP, version 13, as the kernel's tests print it: what is reported of a test stands before its line."""


from pdsuite.output.octets import printable_path
from pdsuite.output.styled_text import StyledText, styled_text_of_one_plain_piece
from pdsuite.programs.verdict import Verdict
from pdsuite.reports.outcome_text import explanation_or_line_below_row, place_row_and_meaning_line, warning_lines_of
from pdsuite.run.outcomes import ScriptOutcome, OutcomeTotals

# Begins a directive, and so stands in no name.
_DIRECTIVE = "#"


class TapFormatter:
    """`ok` for each script that passes, and `not ok` for every other; one that is known not to is still to be done."""

    def opening_before_scripts(self, count: int) -> StyledText:
        return styled_text_of_one_plain_piece(f"TAP version 13\n1..{count}\n")

    def streamed_script_entry_or_none(self, number: int, outcome: ScriptOutcome) -> StyledText:
        name = printable_path(outcome.path, also=_DIRECTIVE)
        if outcome.counted_as is Verdict.PASS:
            warning_lines = warning_lines_of(outcome)
        else:
            warning_lines = [
                place_row_and_meaning_line(outcome),
                *(f"  {it}" for it in explanation_or_line_below_row(outcome)),
                *warning_lines_of(outcome),
            ]
        is_ok = outcome.lets_run_pass and not outcome.is_known_failure
        todo = f" # TODO {outcome.expected.reason}" if outcome.is_known_failure and outcome.expected is not None else ""
        lines = [*(f"# {it}" for it in warning_lines), f"{'ok' if is_ok else 'not ok'} {number} {name}{todo}"]
        return styled_text_of_one_plain_piece("".join(f"{line}\n" for line in lines))

    def totals_after_scripts(self, totals: OutcomeTotals, seconds: float) -> StyledText:
        return styled_text_of_one_plain_piece(f"# {totals} in {seconds:.2f} s{totals.unproved_mark}\n")
