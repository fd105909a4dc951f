"""Has scripts that fail recorded, and puts beside each outcome what its lines were met by."""

from collections.abc import Callable, Iterable, Iterator
from dataclasses import replace

from pdsuite.programs.recorder import Recording
from pdsuite.programs.verdict import Verdict
from pdsuite.run.batches import SuiteScript
from pdsuite.run.line_diff import line_diff_from_recording_or_its_fault
from pdsuite.run.outcomes import ScriptOutcome
from pdsuite.run.run_batches import SettledPiece, Step
from pdsuite.scripts.text import ScriptText

# Records a script.
Record = Callable[[SuiteScript, ScriptText], Recording]


def add_line_diffs_to_failed_outcomes(steps: Iterable[Step], record: Record) -> Iterator[Step]:
    """The steps, in which each script that fails has what its lines were met by."""
    for step in steps:
        if isinstance(step, SettledPiece):
            outcomes = [
                (it, _record_and_add_line_diff_if_failing(it, outcome, step.texts.get(it.index), record))
                for it, outcome in step.outcomes
            ]
            step = replace(step, outcomes=outcomes)
        yield step


def _record_and_add_line_diff_if_failing(
    script: SuiteScript, outcome: ScriptOutcome, text: ScriptText | None, record: Record
) -> ScriptOutcome:
    if outcome.row.verdict is not Verdict.FAIL or outcome.is_known_failure or text is None:
        return outcome
    written = text.octets.decode("utf-8", "surrogateescape")
    found = line_diff_from_recording_or_its_fault(
        outcome.row, outcome.block_lines, written, record(script, text), outcome.settings
    )
    return replace(outcome, line_diff=found)
