"""The program's explanations of scripts beside their rows: the options for them, and outcomes with them."""

from dataclasses import replace

from pdsuite.programs.cause_text import explanation_lines_below_first, make_printable
from pdsuite.programs.protocol import Cause
from pdsuite.programs.verdict import Verdict
from pdsuite.run.outcomes import ScriptOutcome, end_warning_of_passing_row
from pdsuite.run.script_style import restyle_suggested_insertions_like_script
from pdsuite.scripts.text import ScriptText

# These have it explain why scripts don't pass, do so as JSON, and say what those that pass leave at their ends.
EXPLAIN = "--explain"
JSON = "--json"
LEFTOVERS = "--leftovers"
# By these options it explains all of it.
EXPLAIN_OPTIONS = (EXPLAIN, LEFTOVERS, JSON)
# By these a sender does, too, that knows of no leftovers.
EXPLAIN_FAILURES = (EXPLAIN, JSON)


def outcome_with_failure_reason_or_end_warning(
    outcome: ScriptOutcome, cause: Cause | None, text: ScriptText
) -> ScriptOutcome:
    """The outcome of a text with its explanation: why it doesn't pass, or what is to be warned of at its end.

    Of a text that is no script it says where that breaks off.
    """
    row = outcome.row
    if cause is None:
        return outcome
    if row.line is None:
        return replace(outcome, at_end=end_warning_of_passing_row(row, cause))
    lines = restyle_suggested_insertions_like_script(explanation_lines_below_first(cause), text.octets)
    explanation = cause if row.verdict is Verdict.SYNTAX else None
    return replace(outcome, why=make_printable(str(cause.get("what", ""))), block_lines=lines, explanation=explanation)
